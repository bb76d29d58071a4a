"""The controller, the node of a script of version 3 in which the manager runs: what each command says of it."""
import json
import os
import re
import subprocess
from unittest import mock

import conform_judge
import log_faults
from helper import Skipped, example, file, in_parallel, is_fine, put, real, recorded, run

from cobench_tools.logs import writers

PYTHON_CAN = "/usr/bin/python3"
SHEET = """\
[1000]
DataType=7
AccessType=ro
DefaultValue=0x00020192
[1001]
DataType=5
AccessType=ro
[1016]
ParameterName=Consumer heartbeat time
ObjectType=8
DataType=7
CompactSubObj=2
[1017]
ParameterName=Producer heartbeat time
DataType=6
PDOMapping=1
[1400sub1]
DataType=7
DefaultValue=0x80000000
[1400sub2]
DataType=5
[1600sub0]
DataType=5
[1600sub1]
DataType=7
[1800sub1]
DataType=7
DefaultValue=0x80000000
[1800sub2]
DataType=5
[1800sub3]
DataType=6
[1A00sub0]
DataType=5
[1A00sub1]
DataType=7
[2000]
ParameterName=Level
DataType=5
PDOMapping=1
HighLimit=100
[2001]
ParameterName=Mode
DataType=6
[2002]
ParameterName=Order
DataType=5
PDOMapping=1
""".splitlines()

# A pump and its controller, which watch each other; each sends the other a value at each SYNC.
NETWORK = ["version 3", "bitrate 500", "horizon 400000", "manager 10 10000 50 500", f"eds unit {len(SHEET)}", *SHEET,
           "node 5 pump unit", "node 10 plc unit", "param 5 1017 0 40", "param 5 1016 1 0x000A0078", "param 10 1017 0 50",
           "param 10 1016 1 0x00050078", "param 10 2001 0 7",
           "message level 5 1 1 0 0 0", "source level 1 2000 0", "sink level 1 10 2002 0",
           "message order 10 1 1 0 0 0", "source order 1 2000 0", "sink order 1 5 2002 0"]
OF_MANAGER = r" (000|080|70A|18A|08A)#"


def script(lines=None, name="net.txt"):
    """The script of some lines, of the network without them."""
    return put(name, "".join(f"{line}\n" for line in lines or NETWORK).encode())


def row(text, lines=None):
    """The number of a line of the network."""
    return (lines or NETWORK).index(text) + 1


def output(*words):
    """What a command prints of the network by recorded replies, without a fault."""
    status, text, faults = run(*words, "--cobench", recorded(), "net.txt")
    assert status == 0 and not faults, (status, faults)
    return text.decode()


def log():
    """The run of the network as candump writes it, line by line: with times from second 1 on, and no word on who sent what."""
    script()
    return output("candump", "--start", "1").splitlines(keepends=True)


def told(lines, *words):
    """What `conform` tells of a log, without notes and the last lines."""
    put("run.log", "".join(lines).encode())
    status, text, faults = run("conform", "--cobench", recorded(), *words, "net.txt", "run.log")
    found = [line for line in text.decode().splitlines() if line.startswith("run.log:") and ": note: " not in line]
    assert status in (0, 1) and not faults, (text, faults)
    return found


def codes(lines):
    """The codes that `conform` tells of a log."""
    return [re.search(r"\[([\w-]+)\]$", line).group(1) for line in told(lines)]


def time_of(line):
    return float(line[1:line.index(")")])


def moved(lines, seconds):
    """Lines of a log at other times."""
    return [f"({time_of(line) + seconds:017.6f}){line[line.index(')') + 1:]}" for line in lines]


# Recordings beside the plan.

def test_its_run_conforms_whatever_recorded_it():
    script()
    assert told(log()) == []
    for form in writers.FORMATS:
        put("run.log", output("candump", "--format", form, "--start", "1").encode())
        status, text, _ = run("conform", "--values", "--cobench", recorded(), "net.txt", "run.log")
        assert status == 0 and text.startswith(b"no errors, no warnings; "), text


def test_a_recording_of_python_can_conforms():
    """It keeps no sender of a frame; whether the recorder itself has sent one is taken away too."""
    put("run.log", "".join(log()).encode())
    put("record.py", b"""\
import can
with can.CanutilsLogWriter("python.log", channel="can0") as written:
    for message in can.LogReader("run.log"):
        written.on_message_received(message)
""")
    if not os.path.exists(PYTHON_CAN) or subprocess.run([PYTHON_CAN, "record.py"], stderr=subprocess.PIPE).returncode:
        raise Skipped("python3-can isn't installed")
    lines = [re.sub(r" [RT]$", "", line) + "\n" for line in file("python.log").decode().splitlines()]
    assert len(lines) == len(log()) and re.fullmatch(r"\(1\.\d+\) can0 705#00\n", lines[0]), lines[0]
    assert told(lines) == []


def test_its_run_conforms_from_anywhere_to_anywhere():
    lines = log()
    plan, frames = conform_judge.plan_of("net.txt", recorded())
    for cut in range(1, len(frames), 7):
        assert conform_judge.conform(plan, frames[cut:]) == [] == conform_judge.conform(plan, frames[:cut]), (cut, lines[cut])


def test_the_manager_s_heartbeat_is_its_own():
    """One that stays away is told once, with who misses it; more are missed."""
    lines = log()
    beats = [place for place, line in enumerate(lines) if " 70A#05" in line]
    found = told(lines[:beats[3]] + lines[beats[3] + 1:])
    assert len(found) == 1 and found[0].startswith(f"run.log:{beats[4]}: error: node 10 plc: its heartbeat comes 100.0"), found
    assert "1017h has 50.000 ms; node 5 pump misses it after 120.000 ms: " in found[0] and found[0].endswith("[heartbeat-late]"), found
    assert codes([line for place, line in enumerate(lines) if place not in beats[3:5]]) == ["heartbeat-missed"]


def test_a_machine_s_controller_may_start_itself():
    """Its heartbeat has its state there, and no command to it is on the bus."""
    lines = [line for line in log() if " 000#010A" not in line]
    start = next(place for place, line in enumerate(lines) if " 18A#" in line)
    assert told([line.replace(" 70A#05", " 70A#7F") if place < start else line for place, line in enumerate(lines)]) == []


def test_a_machine_s_controller_may_be_there_before_the_others():
    """Three seconds of its boot-up message, its heartbeat and SYNC, and then the run without that message."""
    lines = log()
    alone = [f"({1 + time / 1e6:017.6f}) can0 {frame}\n" for time, frame in sorted(
        [(100, "70A#00")] + [(time, "70A#05") for time in range(50_114, 3_000_200, 50_000)] + [(time, "080#") for time in range(10_102, 3_000_200, 10_000)])]
    assert told(alone + moved([line for line in lines if " 70A#00" not in line], 3)) == []


def test_a_state_that_it_was_not_commanded_is_told():
    lines = log()
    beats = [place for place, line in enumerate(lines) if " 70A#05" in line]
    for state, words in (("04", "stopped"), ("7F", "pre-operational")):
        found = told([line.replace("#05", f"#{state}") if place == beats[4] else line for place, line in enumerate(lines)])
        assert len(found) == 1 and f"run.log:{beats[4] + 1}: error: node 10 plc: it is {words}, and was operational (at " in found[0], found


def test_what_stays_away_of_a_controller_is_told():
    """While its SYNC comes, it isn't silent. The heartbeat is told once."""
    lines = log()
    assert codes([line for line in lines if time_of(line) < 1.2 or not re.search(OF_MANAGER, line)]) == ["sync-missing", "heartbeat-missed"]
    found = told([line for line in lines if time_of(line) < 1.2 or " 70A#" not in line])
    assert len(found) == 1 and "node 10 plc: no heartbeat came for " in found[0] and " times, " not in found[0], found
    with_sync = [line for line in lines if time_of(line) < 1.2 or not re.search(r" (70A|18A|08A)#", line)]
    assert codes(with_sync) == ["pdo-missing", "heartbeat-missed"]


def test_a_controller_that_is_not_there_is_told():
    assert codes([line for line in log() if not re.search(OF_MANAGER, line)])[0:1] == ["sync-missing"]
    found = told([line for line in log() if not re.search(OF_MANAGER, line)])
    assert sum("node 10 plc: nothing of it comes in all of the log" in line for line in found) == 1, found


def test_it_is_booted_by_nobody():
    """What it holds may be written by others in any order; another value and an entry that isn't planned are told."""
    def written(*requests):
        lines = log()
        at = next(place for place, line in enumerate(lines) if time_of(line) > 1.301)
        time = time_of(lines[at - 1])
        frames = [each for request in requests for each in (f"60A#{request}", f"58A#60{request[2:8]}00000000")]
        return codes(lines[:at] + [f"({time:017.6f}) can0 {frame}\n" for frame in frames] + lines[at:])
    assert written("2B01200007000000", "2316100178000500") == [] == written("2316100178000500", "2B01200007000000")
    assert written("2B01200008000000") == ["sdo-value"] and written("2F00200008000000") == ["sdo-unplanned"]


def with_controllers():
    """Has generated networks be scripts of version 3 whose manager runs in one of the nodes."""
    return mock.patch.dict(os.environ, COBTOOL_CONTROLLER="1")


def test_runs_of_generated_networks_conform_and_planted_faults_are_told():
    with with_controllers():
        assert [conform_judge.own_run(number, recorded()) for number in (0, 1, 7)] == [[], [], []]
        counts, wrong = conform_judge.judge_kinds(list(log_faults.KINDS), 1, (0, 1, 7), recorded())
    assert not wrong and sum(count > 0 for count in counts.values()) > 20, (wrong, counts)


def own_run(number):
    with with_controllers():
        return conform_judge.own_run(number, real())


def all_runs_of_200_networks_with_a_controller_conform():
    real()
    runs = sum(in_parallel(own_run, list(range(200))), [])
    assert not runs, runs[:20]


# What the plan shows.

def test_the_load_has_one_heartbeat_and_one_sender():
    """The pump is booted, so that its SDO is the one that may come in the way."""
    script()
    frames = json.loads(output("load", "--json"))["frames"]
    assert [(f"{each['identifier']:03X}", each["frames"], each["sender"]) for each in frames] == [
        ("080", "SYNC", 10), ("085", "EMCY of pump", 5), ("08A", "EMCY of plc", 10), ("185", "level", 5), ("18A", "order", 10), ("585", "SDO", 10),
        ("705", "heartbeat of pump", 5), ("70A", "heartbeat of plc", 10)]
    assert [each["period_us"] for each in frames if each["identifier"] == 0x70A] == [50_000]
    boots = output("load", "--table", "boot", "--format", "csv").splitlines()
    assert len(boots) == 3 and boots[1].startswith("5,pump,") and boots[2].startswith("-,all of the manager's SDO,"), boots


def test_events_that_do_nothing_change_no_period():
    for events in (["event 1 100000 set 10 1017 0 5"], ["event 2 20000 power 10 off", "event 3 30000 power 10 on"]):
        script(NETWORK + events)
        frames = json.loads(output("load", "--json"))["frames"]
        assert [(each["period_us"], each["seen_us"]) for each in frames if each["identifier"] == 0x70A] == [(50_000, 446)], events


def test_the_matrix_has_one_row_of_it():
    script()
    text = output("matrix")
    assert "\n2 nodes; 2 messages; 500 kbit/s; manager 10 plc; SYNC each 10,000 us; SDO timeout 500 ms; heartbeat of the manager each 50 ms\n" in text
    rows = output("matrix", "--format", "csv", "--table", "nodes").splitlines()
    assert [line.split(",")[6] for line in rows] == ["Need", "optional", "manager"], rows
    beats = output("matrix", "--format", "csv", "--table", "heartbeats").splitlines()
    assert beats[1:] == ["5,pump,40,plc,120", "10,plc,50,pump,120"], beats
    script([line.replace("param 10 1017 0 50", "param 10 1017 0 40") for line in NETWORK])
    assert output("matrix", "--format", "csv", "--table", "heartbeats").splitlines()[2:] == ["10,plc,50,pump,120"], "it is the manager's"


def test_a_consumer_of_its_own_number_watches_nobody():
    script(NETWORK + ["param 10 1016 2 0x000A0078"])
    assert output("matrix", "--format", "csv", "--table", "heartbeats").splitlines()[2:] == ["10,plc,50,pump,120"]


def test_the_dbc_has_it_once():
    script()
    assert "\nBU_: pump plc\n" in output("dbc")


def test_explain_knows_its_pdos_and_its_starts():
    """Nothing is written into it."""
    script()
    lines = [line[11:] for line in output("explain").splitlines()]
    assert lines.index("000 start plc") < lines.index("70A plc boot-up") and lines.count("000 start plc") == 2
    assert "70A plc heartbeat: operational" in lines and not any(re.match("(60A|58A) ", line) or "manager" in line for line in lines)
    pdos = {line for line in lines if line.startswith("18A ")}
    assert pdos == {"18A order: 2000h=00h"}, pdos
    recorded_lines = run("explain", "--cobench", recorded(), "--log", put("run.log", "".join(log()).encode()), "net.txt")[1].decode().splitlines()
    assert [line[11:] for line in recorded_lines] == [line for line in lines if not line.startswith("note ")]


def test_a_pdo_that_comes_before_its_boot_up_message_is_known():
    status, text, _ = run("explain", "--cobench", recorded(), example("network.txt"))
    lines = text.decode().splitlines()
    assert status == 0 and lines.index("0000013302 28A outputs: A4C0h:01=00h") < lines.index("0000031190 70A plc boot-up")


def drawn(*words):
    """The content of a timeline."""
    page = output("timeline", *words)
    return json.loads(re.search(r'(?s)<script type="application/json"[^>]*>(.*?)</script>', page).group(1))


def test_the_timeline_has_one_lane_of_it():
    """Its state is that of its device: the heartbeat, which says Operational from the beginning on, doesn't tell it."""
    lines = NETWORK + ["need 5 mandatory", "event 1 0 power 5 off", "event 2 200000 power 5 on", "event 3 210000 power 10 off"]
    script(lines)
    page = drawn()
    assert page["lanes"] == [[10, "plc", "manager 10"], [5, "pump", "node 5"]], page["lanes"]
    names = [[time, page["stateNames"][state]] for time, state in page["states"]["10"]]
    assert names[0] == [0, "pre-operational"] and names[-1][1] == "operational" and names[-1][0] > 200_000, names
    assert [event for event in page["events"] if event[1] == 10] == [
        [210_000, 10, "event", "power off", "event 3: power off, which does nothing"]], page["events"]


def test_the_timeline_of_a_recording_has_one_lane_beside_the_planned_one():
    put("run.log", "".join(log()).encode())
    status, _, faults = run("conform", "--cobench", recorded(), "--timeline", "run.html", "net.txt", "run.log")
    assert status == 0 and not faults
    page = json.loads(re.search(r'(?s)<script type="application/json"[^>]*>(.*?)</script>', file("run.html").decode()).group(1))
    assert [lane[:3] for lane in page["lanes"]] == [
        [10, "plc", "manager 10"], [1010, "plc", "planned, node 10"], [5, "pump", "node 5"], [1005, "pump", "planned, node 5"]]
    assert page["states"]["1010"] and page["states"]["10"] and page["states"]["5"]


def test_the_difference_is_told():
    script(["version 3", *NETWORK[1:3], "manager 127 10000 50 500", *NETWORK[4:]], "old.txt")
    script()
    status, text, _ = run("diff", "--cobench", recorded(), "old.txt", "net.txt")
    assert status == 1 and "  number of the manager: 127 -> 10\n" in text.decode() and "  need: optional -> manager\n" in text.decode(), text.decode()


# What is wrong with it.

WRONG = [*NETWORK[:NETWORK.index("param 10 1017 0 50")], "param 10 1017 0 40", "param 10 1016 1 0x000A0096", "param 5 1016 2 0x000A0014",
         "message beat 10 1 255 0 0 0", "source beat 1 1017 0", "sink beat 1 5 2002 0", "message set 5 1 255 0 0 0", "source set 1 2000 0",
         "sink set 1 10 1017 0", "event 1 1000 power 10 off", "event 2 2000 set 10 1017 0 7", "event 3 3000 set 10 1017 0 x"]


def test_check_tells_what_is_wrong_with_it():
    script(WRONG)
    status, text, faults = run("check", "--cobench", recorded(), "net.txt")
    found = text.decode().splitlines()
    manager = "the controller's heartbeat is the manager's, whose time is HB_MS of manager"
    for line in (
            f"{row('param 10 1017 0 40', WRONG)}: warning: node 10 plc: 1017h:00 Producer heartbeat time is 40, and the node is the manager, whose "
            "heartbeat comes each 50 ms: a param with 50 would do, or 40 for HB_MS of manager [W27]",
            f"{row('param 10 1016 1 0x000A0096', WRONG)}: warning: node 10 plc: 1016h:01 Consumer heartbeat time 1: it waits 150 ms for the node itself, "
            "which hears no heartbeat of its own [W19]",
            f"{row('param 5 1016 2 0x000A0014', WRONG)}: warning: node 5 pump: 1016h:02 Consumer heartbeat time 2: it waits 20 ms for node 10 plc, which "
            "sends its heartbeat each 50 ms [W19]",
            f"{row('source beat 1 1017 0', WRONG)}: error: message beat: source 1: 1017h:00 Producer heartbeat time of node 10 plc can't be in a TPDO, as "
            f"{manager} [E08]",
            f"{row('sink set 1 10 1017 0', WRONG)}: error: message set: sink 1: 1017h:00 Producer heartbeat time of node 10 plc can't be in an RPDO, as "
            f"{manager} [E08]",
            f"{row('event 1 1000 power 10 off', WRONG)}: warning: event 1: power off of node 10 plc does nothing: the manager runs in it, and its power "
            "isn't switched; nmt 129 resets its device [W25]",
            f"{row('event 2 2000 set 10 1017 0 7', WRONG)}: warning: event 2: 1017h:00 Producer heartbeat time of node 10 plc isn't asked: the node's "
            "heartbeat is the manager's, each 50 ms (HB_MS of manager) [W25]"):
        assert f"net.txt:{line}" in found, (line, found)
    assert status == 1 and not faults and found[-1].endswith("; 1 of 1 node booted by 2.040 ms"), found[-1]
    assert sum("event 3:" in line for line in found) == 2 and not any("unconfigured" in line for line in found), found


def test_a_controller_alone_is_no_fault():
    script([line for line in NETWORK if not re.match("(node|message|sink|source) (5|level|order)|param 5|param 10 1016", line)])
    is_fine(run("check", "--cobench", recorded(), "net.txt"), b"no errors, no warnings; no nodes to boot\n")


def test_it_is_no_mandatory_node():
    """The network waits for the pump, which has no power, and so does the controller."""
    script(NETWORK + ["need 5 mandatory", "need 10 mandatory", "event 1 0 power 5 off"])
    status, text, _ = run("check", "--cobench", recorded(), "net.txt")
    assert status == 1 and "[unconfigured]" in text.decode() and "node 10" not in text.decode(), text


def test_refusals_of_versions_say_what_would_do():
    lines = [f"eds unit {len(SHEET)}", *SHEET, "node 127 plc unit", "node 10 plc unit", "manager 10 0 0 500", "version 3", "manager 10 0 0 500",
             "node 11 plc unit", "version 2", "version 1"]
    script(lines)
    found = [line for line in run("check", "--cobench", recorded(), "net.txt")[1].decode().splitlines() if "[refused]" in line]
    assert [line.partition(": error: ")[2] for line in found] == [
        "node 127 plc unit: refused 5 Taken: 127 is the number of the manager; in version 3 a node can have it [refused]",
        "manager 10 0 0 500: refused 5 Taken: 10 is the number of a node; in version 3 the manager can have it [refused]",
        "node 11 plc unit: refused 5 Taken: node 10 has that name [refused]",
        "version 2: refused 6 InUse: node 10 has the manager's number, which it can in version 3 alone [refused]",
        "version 1: refused 6 InUse: node 10 has the manager's number, which it can in version 3 alone [refused]"], found
