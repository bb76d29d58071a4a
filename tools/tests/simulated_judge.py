"""Judges `cobtool conform` by machines that the simulation runs otherwise than planned: see simulated_faults.py.

Of each recording one thing has to be reported and nothing else, or the line `not judged` has it; or nothing, where nothing is wrong.
"""
from collections import Counter

import conform_judge
import log_faults
import simulated_faults
from helper import put
from networks import Dice

from cobench_tools.conform import run
from cobench_tools.conform.tolerance import Tolerance
from cobench_tools.logs import source, writers

TOLD, LEFT, WRONG = "reported", "not judged", "wrong"
PPM, JITTER, LATEST = 200, 120, 80_000


def judged(plan, frames):
    """The findings of a log of frames, and what wasn't judged."""
    put("run.log", writers.log_of(frames, "log", 1).encode())
    judge = run.judged(plan, source.Log("run.log"), Tolerance())
    return judge.causes.all(), [name for name, _ in judge.absences.left]


def parts(frames, dice):
    """A recording, and the same begun later, and cut twice: each with a name."""
    start = dice.below(len(frames) * 2 // 3)
    return [("whole", frames), ("later", frames[start:]), ("window", frames[start:start + 1 + dice.below(len(frames) - start)])]


def outcome(found, left, key, names):
    """What became of a recording in which only the cause of a key is to be reported, or these names as not judged.

    Where the boot of the sender is in the recording, the writes of a message that are missing there are its cause.
    """
    if not found:
        return LEFT if any(name in left for name in names) else WRONG
    is_cause = found[0].key == key or found[0].code == "sdo-missing" and key[0].startswith("pdo-")
    return TOLD if len(found) == 1 and is_cause else WRONG


class Tally:
    """How the recordings were judged: how many of each, and those that are wrong."""

    def __init__(self):
        self.counts, self.wrong = Counter(), []

    def add(self, what, number, found, left, key, names):
        became = outcome(found, left, key, names)
        self.counts[what, became] += 1
        if became == WRONG:
            self.wrong.append(f"{number} {what} {key}: {[(each.key, each.first.line, each.text) for each in found[:3]]} {left[:4]}")


def without_power(number, program, tally):
    """Each node in turn has no power from the beginning on: nothing but that is reported, from power-on and from anywhere."""
    plan, _ = conform_judge.planned(number, program)
    for node in plan.project.booted:
        frames = simulated_faults.frames_of(simulated_faults.without_power(conform_judge.script_of(number), node), program)
        for name, each in parts(frames, Dice(f"{number} {node}")) if len(frames) > 2 else ():
            tally.add(f"no power, {name}", number, *judged(plan, each), ("never-seen", str(node)), [plan.name(node)])


def with_two(number, program, tally):
    """Each node in turn is there twice, from power-on."""
    plan, frames = conform_judge.planned(number, program)
    for node in plan.nodes if frames else ():
        own = {tpdo.identifier for tpdo in plan.wiring.tpdos if tpdo.node == node}
        log = simulated_faults.doubled(frames, node, own, Dice(f"{number} {node}").one([300, 900, 3000]))
        if any(identifier == 0x700 + node for _, identifier, _ in log):
            tally.add("two of one number", number, *judged(plan, log), ("two-devices", str(node)), [])


def without_message(number, program, tally):
    """Each message that comes by itself isn't sent, in a log that begins behind the boots; the others are as planned."""
    plan, _ = conform_judge.planned(number, program)
    for tpdo in plan.wiring.tpdos:
        name = plan.wiring.message_of(tpdo)
        if not name or not (tpdo.event and tpdo.kind > 240 or tpdo.kind in range(1, 241) and plan.sync):
            continue
        script = simulated_faults.without_message(conform_judge.script_of(number), name.encode())
        put("machine.txt", script)
        other, frames = conform_judge.plan_of("machine.txt", program)
        start = max((place for place, frame in enumerate(frames) if 0x580 < frame[1] < 0x680), default=0) + 1
        is_same = {pdo.identifier for pdo in other.wiring.tpdos} == {pdo.identifier for pdo in plan.wiring.tpdos} - {tpdo.identifier}
        if is_same and start < len(frames) - 1:
            key = "pdo-event" if tpdo.event and tpdo.kind not in range(241) else "pdo-missing", f"{tpdo.identifier:03X}"
            own = {0x700 + tpdo.node} | {pdo.identifier for pdo in plan.wiring.tpdos if pdo.node == tpdo.node}
            if not any(identifier in own for _, identifier, _ in frames[start:]):
                key = "never-seen", str(tpdo.node)
            names = [f"{tpdo.identifier:03X}h message {name}", plan.name(tpdo.node)]
            tally.add("no message", number, *judged(plan, frames[start:]), key, names)


def with_other_boots(number, program, tally):
    """Nodes have power later than others, each by its own time, and clocks are off: nothing is wrong, wherever the log is cut."""
    script = conform_judge.script_of(number)
    if b" power " in script:
        return
    plan, _ = conform_judge.planned(number, program)
    dice = Dice(f"boots {number}")
    delays = {node: dice.below(LATEST) for node in plan.nodes if dice.often(0.7)}
    frames = simulated_faults.frames_of(simulated_faults.booting_later(script, delays), program)
    for _ in range(6 if len(frames) > 2 else 0):
        cut, ppm = dice.below(len(frames) - 1) + 1, dice.one([-PPM, PPM])
        drifted = log_faults.drifted(frames[:cut], dice, ppm, JITTER)
        for name, each in (("later", frames[cut:]), ("sooner", frames[:cut]), ("by another clock", drifted)):
            found, left = judged(plan, each)
            tally.counts[f"other boots, {name}", WRONG if found else "no word"] += 1
            tally.wrong += [f"{number} {name} {cut}: {[(cause.key, cause.first.line, cause.text) for cause in found[:3]]}"] if found else []


ALL = without_power, with_two, without_message, with_other_boots


def judge_all(numbers, program, kinds=ALL):
    """All of these over some networks."""
    tally = Tally()
    for number in numbers:
        for kind in kinds:
            kind(number, program, tally)
    return tally
