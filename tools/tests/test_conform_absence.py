"""What is absent from a recording, and causes of which only the cause is reported: `cobtool conform`."""
import re
from collections import Counter

import conform_judge
import simulated_faults
import simulated_judge
from helper import example, in_parallel, put, real, recorded, run
from networks import Dice
from own_pace import Machine
from test_conform import NETWORK

SIMULATED = 5, 10
FIRST_AXIS = " (701|601|581|081|181|281)#"


def conform(*words):
    return run("conform", "--cobench", recorded(), *words)


def machine(seed=1, seconds=4):
    """The lines of a log of a machine with a pace of its own, and its network in net.txt."""
    put("net.txt", NETWORK)
    lines = Machine(Dice(seed), seconds).log().splitlines(keepends=True)
    return [line for line in lines if re.search(r" can0 [0-9A-F]{3}#", line)]


def running(seed=1, seconds=4):
    """The same from the middle on: nothing of the start is in it."""
    lines = machine(seed, seconds)
    return lines[place(lines, " 080#", 20):]


def place(lines, pattern, nth=1):
    """The place of the nth line that has a pattern."""
    return [number for number, line in enumerate(lines) if re.search(pattern, line)][nth - 1]


def time_of(line):
    """The microseconds of a line."""
    return int(line[1:].split(")")[0].replace(".", ""))


def without(lines, pattern):
    return [line for line in lines if not re.search(pattern, line)]


def told(lines, script="net.txt"):
    """What is told of lines of a log: the findings, the notes, and what wasn't judged."""
    put("run.log", "".join(lines).encode())
    status, output, faults = conform(script, "run.log")
    assert not faults, faults
    rows = output.decode().splitlines()
    found = [row for row in rows if re.match(r"run\.log:\d+: (error|warning): ", row)]
    assert status == (1 if any(": error: " in row for row in found) else 0)
    left = [row for row in rows if row.startswith("not judged: ")]
    return found, [row for row in rows if ": note: " in row], left[0] if left else ""


def is_alone(found, line, code, *words):
    """There is one finding, in a line, with a code and words."""
    assert len(found) == 1 and found[0].startswith(f"run.log:{line}: error: ") and found[0].endswith(f"[{code}]"), (line, found)
    for each in words:
        assert each in found[0], (each, found)


def axes():
    with open(example("servo_axes.log")) as log:
        return log.readlines()


def test_a_node_that_is_not_there_is_reported_wherever_the_log_begins():
    """The first axis has a PDO at each SYNC: it is due at the first SYNC behind its start command, or behind the start of all."""
    lines = without(axes(), FIRST_AXIS)
    started = place(lines, " 000#0101")
    found, notes, left = told(lines, example("servo_axes.txt"))
    is_alone(found, place(lines[started:], " 080#") + started + 1, "never-seen", "node 1 x_axis: nothing of it comes in all of the log, 311.778 ms; ")
    assert left == "not judged: heartbeat of manager (the log has 295.204 ms, and it takes 751.101 ms)", left
    lines = without(axes()[199:], FIRST_AXIS)
    started = place(lines, " 000#010A")
    found, notes, left = told(lines, example("servo_axes.txt"))
    is_alone(found, place(lines[started:], " 080#") + started + 1, "never-seen", "node 1 x_axis: nothing of it comes in all of the log, 298.652 ms; ")
    assert left == "not judged: heartbeat of manager (the log has 295.204 ms, and it takes 751.101 ms)", left


def test_a_machine_without_a_fault_is_left_in_peace_wherever_its_log_begins_and_ends():
    put("net.txt", NETWORK)
    plan, _ = conform_judge.plan_of("net.txt", recorded())
    for seed in range(8):
        dice, frames = Dice(seed), Machine(Dice(seed), 2).frames
        frames = [(time, identifier, bytes.fromhex(digits)) for time, identifier, digits in frames]
        for _ in range(12):
            start = dice.below(len(frames) - 2)
            assert conform_judge.conform(plan, frames[start:]) == [] == conform_judge.conform(plan, frames[:start + 1]), (seed, start)


def test_a_log_that_begins_with_a_boot_is_of_power_on_only_where_each_node_boots_in_it():
    """Nodes 1 and 4 send nothing by themselves: 4 is missed where all others boot in the log, and not where one was up before.

    Node 1 boots first, so that it may have booted before the log.
    """
    nodes = "".join(f"node {node} n{node} d\nparam {node} 1017 0 {time}\n" for node, time in ((1, 0), (2, 20), (3, 20), (4, 0)))
    put("net.txt", f"eds d 3\n[1017]\nDataType=6\nAccessType=rw\n{nodes}horizon 400000\ntrace\n".encode())
    plan, frames = conform_judge.plan_of("net.txt", recorded())
    starts = {identifier: at for at, (_, identifier, data) in reversed(list(enumerate(frames))) if data == b"\0"}
    assert starts[0x701] < starts[0x702] < starts[0x703]
    assert conform_judge.conform(plan, frames[starts[0x703]:]) == []
    for node, codes in ((1, []), (4, ["never-seen"])):
        others = [frame for frame in frames if frame[1] not in (0x700 + node, 0x600 + node, 0x580 + node)]
        assert [code for code, _, _ in conform_judge.conform(plan, others)] == codes, node


def test_a_log_that_begins_in_the_midst_of_a_start_of_another_order_misses_no_boot():
    """Node 4 boots ahead of node 1, with which the log begins as if it were the planned run.

    Where 3 comes before 2, as it isn't planned, 4 may have been up too; with a heartbeat it is heard at another time than planned.
    """
    for beat, order in ((0, (1, 3, 2)), (20, (1, 3, 2)), (20, (1, 2, 3))):
        nodes = "".join(f"node {node} n{node} d\nneed {node} mandatory\nparam {node} 1017 0 {beat if node == 4 else 0}\n"
                        for node in (1, 2, 3, 4))
        text = f"version 2\nmanager 127 10000 0 500\neds d 3\n[1017]\nDataType=6\nAccessType=rw\n{nodes}horizon 400000\n".encode()
        put("net.txt", text + b"trace\n")
        put("other.txt", simulated_faults.booting_later(text, dict(zip(order, (2000, 3000, 4000)))) + b"trace\n")
        plan, _ = conform_judge.plan_of("net.txt", recorded())
        _, frames = conform_judge.plan_of("other.txt", recorded())
        start = next(place for place, frame in enumerate(frames) if frame[1:] == (0x701, b"\0"))
        assert 0x584 in {identifier for _, identifier, _ in frames[:start]}
        assert conform_judge.conform(plan, frames[start:]) == [], (beat, order)


def test_a_node_that_boots_without_a_boot_up_message_is_reported():
    """The second axis does so, in a recording that begins with the planned run: at its first frame behind it, an answer."""
    lines = without(axes(), " 702#00")
    found, _, _ = told(lines, example("servo_axes.txt"))
    found = [row for row in found if row.endswith("[never-boots]")]
    is_alone(found, place(lines, " 582#") + 1, "never-boots", "node 2 y_axis: it is heard, and no boot-up message of it is there (at ")


def test_a_first_heartbeat_may_have_waited_for_a_start_before_the_log():
    """It is pre-operational by the first frame of the log, and operational from then on, also where the next one comes late.

    After two of them nothing explains that.
    """
    put("net.txt", b"eds d 3\n[1017]\nDataType=6\nAccessType=rw\nnode 2 n2 d\nparam 2 1017 0 20\nhorizon 100000\ntrace\n")
    plan, _ = conform_judge.plan_of("net.txt", recorded())
    for before, late, codes in ((1, 0, []), (1, 60_000, ["heartbeat-late"]), (2, 0, ["state"])):
        states = [0x7F] * before + [0x05] * 20
        frames = [(20_000 * number + late * bool(number), 0x702, bytes([state])) for number, state in enumerate(states)]
        assert [code for code, _, _ in conform_judge.conform(plan, frames)] == codes, (before, late)


def test_nothing_is_missed_of_a_network_that_waits_for_a_mandatory_node():
    """Node 1 has no power, so that nothing starts the others: of their PDOs none is due, and node 1 by its heartbeat alone."""
    sheet = "[1017]\nDataType=6\nAccessType=rw\n[2000]\nDataType=5\nAccessType=rw\nPDOMapping=1\n" + "".join(
        f"[{section}]\nDataType={kind}\nAccessType=rw\n" for section, kind in (
            ("1800sub1", 7), ("1800sub2", 5), ("1A00sub0", 5), ("1A00sub1", 7)))
    nodes = "".join(f"node {node} n{node} d\nparam {node} 1017 0 {20 if node < 3 else 0}\nmessage m{node} {node} 1 1 0 0 0\n"
                    f"source m{node} 1 2000 0\n" for node in (1, 2, 3))
    text = f"version 2\nmanager 127 10000 0 500\neds d {len(sheet.splitlines())}\n{sheet}{nodes}need 1 mandatory\nhorizon 400000\n"
    put("net.txt", text.encode() + b"trace\n")
    put("dead.txt", text.encode() + b"event 1 0 power 1 off\ntrace\n")
    plan, _ = conform_judge.plan_of("net.txt", recorded())
    _, frames = conform_judge.plan_of("dead.txt", recorded())
    later = [frame for frame in frames if frame[0] > 100_000]
    assert [(code, count) for code, _, count in conform_judge.conform(plan, later)] == [("never-seen", 1)]


def test_a_heartbeat_that_never_comes_is_reported_where_it_is_due():
    """One and a half periods of 40 ms, and what times may be off (2 x 0.5 ms, 200 ppm, 1 us), are 61.009 ms; node 6 waits for 120 ms."""
    lines = without(running(), " 705#")
    due = next(number for number, line in enumerate(lines, 1) if time_of(line) >= time_of(lines[0]) + 61_009)
    gap = (time_of(lines[-1]) - time_of(lines[0])) / 1000
    found, _, left = told(lines)
    is_alone(found, due, "heartbeat-missed", f"node 5 pump: no heartbeat came for {gap:,.3f} ms, to the end; 1017h has 40.000 ms, "
             "and node 6 valve misses it after 120.000 ms")
    assert not left, left
    lines = without(running(), " 77F#")
    found, _, left = told(lines)
    assert len(found) == 1 and "manager: no heartbeat came for" in found[0] and found[0].endswith("[heartbeat-late]") and not left, found


def test_a_pdo_at_sync_that_never_comes_is_reported_at_its_first_sync():
    """At the first one behind the first heartbeat 05h, and behind the start command."""
    for lines in (without(running(), " 185#"), without(machine(), " 185#")):
        found, _, left = told(lines)
        start = place(lines, " 705#05")
        is_alone(found, start + place(lines[start:], " 080#") + 1, "pdo-missing", "message level: 185h: it doesn't come after SYNC, ", "its type is 1")
        assert not left, left


def test_a_node_of_which_nothing_comes_is_one_finding():
    lines = without(running(), " (705|185|585)#")
    found, _, left = told(lines)
    is_alone(found, place(lines, " 080#") + 1, "never-seen", "node 5 pump: nothing of it comes in all of the log, ")
    assert not left, left
    lines = without(running(), " (706|586)#")
    found, _, left = told(lines)
    is_alone(found, next(number for number, line in enumerate(lines, 1) if time_of(line) >= time_of(lines[0]) + 61_009), "never-seen",
             "node 6 valve: nothing of it comes in all of the log, ", "; its heartbeat is planned each 40.000 ms")


def test_sync_that_never_comes_stands_first_and_no_pdo_is_blamed_for_it():
    for lines in (without(machine(), " 080#"), without(running(), " 080#"), without(axes(), " 080#")):
        found, notes, _ = told(lines, "net.txt" if " 185#" in "".join(lines) else example("servo_axes.txt"))
        found = [row for row in found if "sdo-value" not in row and "pdo-swapped" not in row and "heartbeat-missed" not in row]
        assert len(found) == 1 and "manager: SYNC: there is none; the period is 10.000 ms" in found[0] and found[0].endswith("[sync-missing]")
        assert any("a PDO that SYNC sends comes all the same" in note for note in notes), notes
        assert not any(re.match(r"run\.log:0:", note) for note in notes), notes
    put("run.log", "".join(without(axes(), " 080#")).encode())
    assert "[sync-missing]" in conform(example("servo_axes.txt"), "run.log")[1].decode().splitlines()[0]


def test_what_is_not_judged_is_said_with_its_cause():
    """20 ms of a running machine: neither heartbeat comes for sure, nor does it tell that the node is operational."""
    lines = running()
    lines = [line for line in lines if time_of(line) < time_of(lines[0]) + 20_000]
    found, _, left = told(without(lines, " (705|706|77F)#"))
    assert found == [] and re.match(r"not judged: heartbeat of manager \(the log has \d+\.\d{3} ms, and it takes 76\.\d+ ms\); "
                                    r"heartbeat of node 5 pump, node 6 valve \(the log has \d+\.\d{3} ms, and it takes 61\.009 ms\)$", left), left
    found, _, left = told(without(running()[:9], " 080#"))
    assert "SYNC" in left and "185h message level" not in left, left


def test_a_request_without_an_answer_at_the_end_is_reported():
    """The manager waits for 500 ms."""
    lines = running()
    ask, stamp = f"({time_of(lines[50]) / 1e6:.6f}) can0 606#4001200000000000\n", time_of(lines[50])
    for later, count in ((400_000, 0), (600_000, 1)):
        rest = [line for line in lines[51:] if time_of(line) < stamp + later and " 586#" not in line and " 606#" not in line]
        found, _, _ = told(lines[:51] + [ask] + rest)
        assert len(found) == count, found
    is_alone(found, 52, "sdo-unanswered", "node 6 valve: the read of 2001h:00 Mode has no answer")


def test_machines_that_the_simulation_runs_otherwise_are_judged_rightly():
    """Two networks: each node in turn without power, there twice, each message not sent; and boots of another order and length."""
    tally = simulated_judge.judge_all(SIMULATED, recorded())
    assert not tally.wrong, tally.wrong
    assert tally.counts["no power, whole", simulated_judge.TOLD] >= 5 and tally.counts["no power, later", simulated_judge.TOLD] >= 3, tally.counts
    assert tally.counts["two of one number", simulated_judge.TOLD] >= 5 and tally.counts["no message", simulated_judge.TOLD] >= 1, tally.counts
    assert sum(count for (what, became), count in tally.counts.items() if what.startswith("other boots")) >= 18, tally.counts


def simulated_of(number):
    tally = simulated_judge.judge_all([number], real())
    return tally.counts, tally.wrong


def all_machines_of_100_networks_are_judged_rightly():
    real()
    found = in_parallel(simulated_of, list(range(100)))
    counts = sum((each for each, _ in found), Counter())
    print("conform:", ", ".join(f"{what} {became} {count}" for (what, became), count in sorted(counts.items())))
    assert not sum((wrong for _, wrong in found), []), sum((wrong for _, wrong in found), [])[:20]


# Causes, not symptoms.

def test_a_time_in_which_nothing_was_recorded_is_one_finding():
    lines = running()
    start = place(lines, " 080#", 50)
    rest = [line for line in lines[start:] if time_of(line) > time_of(lines[start]) + 300_000]
    found, notes, _ = told(lines[:start] + rest)
    gap = (time_of(rest[0]) - time_of(lines[start - 1])) / 1000
    is_alone(found, start + 1, "gap", f"bus: nothing of the network was recorded for {gap:.3f} ms, and 3 senders had to be heard")
    assert f"run.log:{start}: note: the last frame before" in notes, notes


def shifted(line, by):
    """A line so many microseconds later."""
    time = time_of(line) + by
    return f"({time // 1_000_000}.{time % 1_000_000:06d}){line.split(')', 1)[1]}"


def test_a_clock_that_jumps_is_one_finding():
    lines = running()
    start = place(lines, " 080#", 50)
    found, _, _ = told(lines[:start] + [shifted(line, 3_600_000_000) for line in lines[start:]])
    is_alone(found, start + 1, "gap", "bus: nothing of the network was recorded for 3,600,0")


def test_a_node_that_dies_while_nothing_is_recorded_is_reported_beside_it():
    lines = running()
    start = place(lines, " 080#", 50)
    rest = [line for line in lines[start:] if time_of(line) > time_of(lines[start]) + 300_000]
    found, _, _ = told(lines[:start] + without(rest, " (706|586|606)#"))
    assert [row.split("[")[1] for row in found] == ["gap]", "heartbeat-late]"] and "node 6 valve: no heartbeat came for" in found[1], found


def twins(lines, pattern, by):
    """The lines, and those with a pattern once more so much later."""
    return sorted(lines + [shifted(line, by) for line in lines if re.search(pattern, line)], key=time_of)


def test_two_devices_of_one_number_are_one_finding():
    """By heartbeats alone, by PDOs too, and with the boots and the answers of both."""
    for lines, own in ((running(), " 706#"), (running(), " (705|185)#"), (machine(), " (706|586)#"), (machine(), " (705|185|585)#")):
        node = 5 if "705" in own else 6
        found, notes, _ = told(twins(lines, own, 7_000))
        assert len(found) == 1 and found[0].endswith("[two-devices]") and f"node {node} " in found[0], found
        assert ": two devices seem to have its number: " in found[0] and any(note.startswith("run.log:") for note in notes), (found, notes)


def test_a_device_whose_heartbeat_comes_too_often_is_not_two():
    """Its period is 16 ms, and 40 ms are planned."""
    lines = without(running(), " 706#")
    start, end = time_of(lines[0]), time_of(lines[-1])
    beats = [f"({time // 1_000_000}.{time % 1_000_000:06d}) can0 706#05\n" for time in range(start, end, 16_000)]
    assert told(sorted(lines + beats, key=time_of))[0] == []


def test_frames_of_no_pdo_beside_a_pdo_that_never_comes_may_be_its():
    for lines in (running(), machine()):
        lines = [line.replace(" 185#", " 195#") for line in lines]
        found, _, _ = told(lines)
        is_alone(found, place(lines, " 195#") + 1, "pdo-unplanned", "no TPDO of the plan has the identifier 195h; message level, 185h, "
                 "doesn't come: these may be its frames")


def test_a_node_that_is_reset_and_stays_dead_is_reported():
    lines = running(2, 6)
    at = place(lines, " 080#", 60)
    stamp = lines[at].split(" can0 ")[0]
    dead = lines[:at] + [f"{stamp} can0 000#8105\n"] + without(lines[at:], " (705|185|585)#")
    found, _, _ = told(dead)
    is_alone(found, at + 1, "never-boots", "node 5 pump: it is reset, and no boot-up message of it comes in ")
    boots = shifted(f"{stamp} can0 705#00\n", 400_000)
    found, _, _ = told(sorted(dead + [boots], key=time_of))
    assert len(found) == 1 and found[0].endswith("[boot-stops]"), found
    assert "node 5 pump: it boots, and nothing is written in " in found[0] and "to the end; its boot has 8 writes" in found[0], found


def test_a_boot_without_any_sdo_is_reported():
    lines = machine()
    lines = without(without(lines, " (605|585|185)#"), " 000#0105")
    lines = [line for line in lines if " 705#" not in line or " 705#00" in line]
    found, _, _ = told(lines)
    is_alone(found, place(lines, " 705#00") + 1, "boot-stops", "node 5 pump: it boots, and nothing is written in ")


def test_a_node_that_stays_preoperational_though_started_is_reported():
    lines = [line.replace("705#05", "705#7F") for line in without(machine(), " 185#")]
    found, _, _ = told(lines)
    assert [row.rsplit("[", 1)[1] for row in found] == ["state]"], found
    assert "node 5 pump: it is pre-operational, and was told to be operational" in found[0], found
