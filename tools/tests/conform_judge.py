#!/usr/bin/env python3
"""Judges `cobtool conform` over generated networks: their own runs as logs, and logs with planted faults.

--networks N  the own runs of N networks, as they are, by a clock that is off, and cut: none may be told of
--faults N    N logs of each kind of fault: it has to be told at its line, and nothing else
--simulated N the machines of N networks as the simulation runs them with a fault, or with boots of another order and length
--version V   takes the networks as scripts of that version
--controller  has the manager of each run in one of its nodes: scripts of version 3
"""
import argparse
import os
import re
import sys
import tempfile

TESTS = os.path.dirname(os.path.abspath(__file__))
sys.path[:0] = [os.path.dirname(TESTS), TESTS]

import buses
import log_faults
import networks
from helper import put, real
from networks import Dice
from recording import Recording

from cobench_tools import session, trace
from cobench_tools.conform import choice, run
from cobench_tools.conform.plan import Plan
from cobench_tools.conform.tolerance import Tolerance
from cobench_tools.evidence import Evidence
from cobench_tools.logs import source, writers

FORMS = writers.FORMATS
PPM, JITTER = 200, 120
ROUNDS, MOST_SHOWN = 4, 60


def script_of(number):
    """The script of a network, in the version that is asked for, and with the manager in one of its nodes where that is."""
    script = own_script_of(number)
    version = os.environ.get("COBTOOL_VERSION")
    script = in_version(script, version) if version else script
    return with_controller(script, number) if os.environ.get("COBTOOL_CONTROLLER") else script


def in_version(script, version):
    """A script as one of another version."""
    return b"version %s\n" % version.encode() + re.sub(rb"(?m)^version .*\n", b"", script)


def with_controller(script, number):
    """A script as one of version 3 in which the manager runs in one of the nodes: the first, the last, or one between."""
    nodes = re.findall(rb"(?m)^node (\d+) ", script)
    node = nodes[(0, -1, len(nodes) // 2)[number % 3]]
    return re.sub(rb"(?m)^manager \d+ ", b"manager %s " % node, in_version(script, "3"))


def own_script_of(number):
    """The script of a network: of five two have a fuller bus, and one of these has event times."""
    if number % 5 < 3:
        return networks.network(number // 5 * 3 + number % 5)
    script = buses.bus(number // 5)
    return script if number % 5 == 3 else re.sub(rb"(?m)^(message \S+ \d+ \d+ 255 \d+) 0 ", rb"\1 25 ", script)


def planned(number, program):
    """The plan of a network, and its frames, with its script in the file net.txt."""
    put("net.txt", script_of(number))
    return plan_of("net.txt", program)


def plan_of(path, program, log=None):
    """The plan of a script, the one of a log where there is one, and the frames of its run."""
    if log:
        options = argparse.Namespace(script=path, cobench=program, trace=None)
        plan = choice.plan_of(options, source.Log(log), Tolerance())
    else:
        plan = Plan(session.run(path, program, Evidence.QUERIES))
    return plan, trace.frames_of(plan.lines)


def conform(plan, frames, form="log", window=None, is_exact=False):
    """The findings of a log of frames: code, line and count each."""
    put("run.log", writers.log_of(frames, form, 1).encode())
    judge = run.judged(plan, source.Log("run.log"), Tolerance(), window, is_exact=is_exact)
    return [(cause.code, cause.first.line, cause.count) for cause in judge.causes.all()]


def own_run(number, program):
    """What is told of the own run of a network, though nothing should be."""
    plan, frames = planned(number, program)
    dice, told = Dice(number), []
    if not frames:
        return []
    cut = dice.below(len(frames))
    logs = [(form, frames, form) for form in FORMS] + [("begins later", frames[cut:], "log"), ("ends sooner", frames[:cut + 1], "log")]
    logs += [(f"{ppm} ppm", log_faults.drifted(frames, dice, ppm, JITTER), "log") for ppm in (-PPM, PPM)]
    for name, each, form in logs:
        found = conform(plan, each, form, is_exact=name == "log")
        told += [f"{number} {name} {cut}: {found}"] if found else []
    return told


def why_wrong(kind, plan, frames, dice):
    """Plants a fault: what is wrong with what is told of it, "" for nothing; None where there is no place for it."""
    recording = Recording(plan, frames, dice)
    planted = log_faults.KINDS[kind](recording)
    if planted is None:
        return None
    spoiled, code, line, *window = planted
    found = conform(plan, spoiled, "log", *window)
    codes = code if isinstance(code, tuple) else (code,)
    is_told = len(found) == 1 and found[0][0] in codes and line in (None, found[0][1])
    return "" if is_told else f"{kind}: {code} in line {line}, and told was {found}"


def judge_kinds(kinds, wanted, numbers, program):
    """Plants so many faults of each kind in these networks: how many were planted, and what is told wrongly."""
    counts, wrong, rounds = {kind: 0 for kind in kinds}, [], -(-wanted // len(numbers)) * ROUNDS
    for number in numbers:
        plan, frames = planned(number, program)
        for kind in kinds if frames else ():
            for turn in range(rounds):
                share = -(-wanted * (numbers.index(number) + 1) // len(numbers))
                if counts[kind] >= share:
                    break
                told = why_wrong(kind, plan, frames, Dice(f"{kind} {number} {turn}"))
                if told is None:
                    continue
                counts[kind] += 1
                wrong += [f"{number} {turn} {told}"] if told else []
    return counts, wrong


def main():
    parser = argparse.ArgumentParser(description=__doc__, formatter_class=argparse.RawDescriptionHelpFormatter)
    parser.add_argument("--networks", type=int, default=0)
    parser.add_argument("--faults", type=int, default=0)
    parser.add_argument("--simulated", type=int, default=0)
    parser.add_argument("--of", type=int, default=100, help="plant them in so many networks, 100 without it")
    parser.add_argument("--kind", choices=list(log_faults.KINDS), action="append")
    parser.add_argument("--version", choices=("1", "2", "3"), help="of the scripts")
    parser.add_argument("--controller", action="store_true", help="the manager runs in one of the nodes")
    options = parser.parse_args()
    os.environ["COBTOOL_VERSION"] = options.version or ""
    os.environ["COBTOOL_CONTROLLER"] = "1" if options.controller else ""
    import simulated_judge
    program, wrong = real(), []
    with tempfile.TemporaryDirectory() as folder:
        os.chdir(folder)
        for number in range(options.networks):
            wrong += own_run(number, program)
        print(f"{options.networks} networks, each in {len(FORMS)} formats, cut twice, and by 2 other clocks: "
              f"{len(wrong)} logs of which something is told")
        if options.faults:
            counts, told = judge_kinds(options.kind or list(log_faults.KINDS), options.faults, range(options.of), program)
            print(*(f"{kind}: {count} logs" for kind, count in counts.items()), sep="\n")
            print(f"{sum(counts.values())} faults: {len(told)} told wrongly")
            wrong += told
        if options.simulated:
            tally = simulated_judge.judge_all(range(options.simulated), program)
            print(*(f"{what}, {became}: {count}" for (what, became), count in sorted(tally.counts.items())), sep="\n")
            wrong += tally.wrong
    print(*wrong[:MOST_SHOWN], sep="\n")
    return 1 if wrong else 0


if __name__ == "__main__":
    sys.exit(main())
