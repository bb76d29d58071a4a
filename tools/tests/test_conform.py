"""`conform`: own runs, logs of other programs, planted faults, and what is told by hand."""
import gzip
import json
import os
import re
import subprocess
import xml.etree.ElementTree as xml

import conform_judge
import log_faults
from helper import Skipped, example, in_parallel, is_refused, put, real, recorded, run
from networks import Dice
from own_pace import Machine

from cobench_tools.logs import source, writers

NUMBERS = (0, 1, 2, 3, 5, 6, 7, 10, 11, 12, 14, 15, 16, 17, 20, 21, 22, 24, 25, 26)
SPOILED = (0, 5, 7, 10, 14, 16, 21, 22, 24, 26)
WITHOUT_A_WORD = "no errors, no warnings; "
PYTHON_CAN = "/usr/bin/python3"


def conform(*words, given=b""):
    return run("conform", "--cobench", recorded(), *words, given=given)


def is_conforming(done):
    """Nothing is told but how much there is."""
    assert done[0] == 0 and not done[2] and done[1].decode().startswith(WITHOUT_A_WORD), done


def recording(name, form="log"):
    """The run of an example as a log."""
    return run("candump", "--format", form, "--start", "1", example(f"{name}.replies.txt"))[1]


def rows_of(path, **wanted):
    """All rows of a log with their lines, and the log."""
    log = source.Log(path, **wanted)
    return [(number, *row) for block in log.blocks() for number, row in zip(block.numbers, block.rows)], log


def test_the_runs_of_the_examples_conform_in_each_format():
    for name in ("servo_axes", "io_modules"):
        for form in writers.FORMATS:
            put("run.log", recording(name, form))
            is_conforming(conform(example(f"{name}.txt"), "run.log"))
            put("run.log.gz", gzip.compress(recording(name, form)))
            is_conforming(conform(example(f"{name}.txt"), "run.log.gz"))
        is_conforming(conform("--values", example(f"{name}.txt"), "-", given=recording(name)))


def test_the_runs_of_the_examples_conform_from_anywhere_to_anywhere():
    for name in ("servo_axes", "io_modules"):
        put("run.log", recording(name))
        plan = conform_judge.plan_of(example(f"{name}.txt"), recorded(), "run.log")[0]
        frames = [(time - 1_000_000, int(key[:3], 16), bytes.fromhex(data)) for _, time, key, data in rows_of("run.log")[0]]
        for cut in range(1, len(frames), 11):
            assert conform_judge.conform(plan, frames[cut:]) == [] == conform_judge.conform(plan, frames[:cut]), (name, cut)


def test_the_plan_is_the_state_of_the_script_with_which_the_log_begins():
    """servo_axes has its trace in line 90, and edits behind it, by which the exported run is another one."""
    run("export", "--force", "--cobench", recorded(), "files", example("servo_axes.txt"))
    done = conform(example("servo_axes.txt"), os.path.join("files", "trace.log"))
    is_conforming(done)
    assert b"the plan is the network at line" not in done[1]
    put("run.log", recording("servo_axes"))
    done = conform(example("servo_axes.txt"), "run.log")
    assert b"\nthe plan is the network at line 90 of the script, a trace; edits stand behind it\n" in done[1], done
    assert conform("--trace", "0", example("servo_axes.txt"), "run.log")[0] == 1
    is_refused(conform("--trace", "2", example("servo_axes.txt"), "run.log"), "the script has 1 commands trace, and no trace 2")


def test_the_runs_of_generated_networks_conform():
    for number in NUMBERS:
        assert conform_judge.own_run(number, recorded()) == []


def test_planted_faults_are_told_at_their_lines_and_nothing_else():
    counts, wrong = conform_judge.judge_kinds(list(log_faults.KINDS), 2, SPOILED, recorded())
    assert not wrong, wrong
    assert len(counts) >= 20 and min(counts.values()) >= 1 and sum(counts.values()) >= 40, counts


def own_runs(number):
    return conform_judge.own_run(number, real())


def faults_of(place):
    """How many faults of a kind are planted in 120 networks, and which of them are told wrongly."""
    counts, wrong = conform_judge.judge_kinds([list(log_faults.KINDS)[place]], 330, range(120), real())
    return sum(counts.values()), wrong


def all_runs_of_300_networks_conform_and_300_faults_of_each_of_20_kinds_are_told():
    real()
    runs = in_parallel(own_runs, list(range(300)))
    assert not sum(runs, []), sum(runs, [])[:20]
    found = in_parallel(faults_of, list(range(len(log_faults.KINDS))))
    wrong = [each for _, several in found for each in several]
    print(f"conform: {sum(count for count, _ in found)} planted faults, {len(wrong)} told wrongly")
    assert not wrong and sum(count >= 300 for count, _ in found) >= 20, (wrong[:20], found)


# By hand.

NETWORK = b"""\
bitrate 500
horizon 300000
manager 127 10000 50 500
eds unit 24
[1000]
DataType=7
DefaultValue=0x00020192
[1016sub1]
DataType=7
[1017]
DataType=6
[1800sub1]
DataType=7
DefaultValue=0x80000000
[1800sub2]
DataType=5
[1A00sub0]
DataType=5
[1A00sub1]
DataType=7
[2000]
ParameterName=Level
DataType=5
PDOMapping=1
HighLimit=100
[2001]
ParameterName=Mode
DataType=6
node 5 pump unit
node 6 valve unit
param 5 1017 0 40
param 6 1017 0 40
param 6 1016 1 0x00050078
param 5 2001 0 7
message level 5 1 1 0 0 0
source level 1 2000 0
"""

# A node that takes values up to 100.
LEVEL_TAKER = b"""\
eds taker 18
[1016sub1]
DataType=7
[1017]
DataType=6
[1400sub1]
DataType=7
DefaultValue=0x80000000
[1400sub2]
DataType=5
[1600sub0]
DataType=5
[1600sub1]
DataType=7
[2000]
ParameterName=Taken
DataType=5
PDOMapping=1
HighLimit=100
node 6 valve taker"""


def lines_of_hand():
    """The run of the network by hand, as lines of a log."""
    put("net.txt", NETWORK)
    plan, frames = conform_judge.plan_of("net.txt", recorded())
    return writers.log_of(frames, "log", 1).splitlines(keepends=True)


def told(lines, *words):
    """What is told of lines of a log, without the notes and the last lines."""
    put("run.log", "".join(lines).encode())
    status, output, faults = conform(*words, "net.txt", "run.log")
    assert not faults, faults
    found = [line for line in output.decode().splitlines() if line.startswith("run.log") and ": note:" not in line]
    assert status == (1 if any(": error: " in line for line in found) else 0)
    return found


def place(lines, pattern, nth=1):
    """The place of the nth line that has a pattern."""
    return [number for number, line in enumerate(lines) if re.search(pattern, line)][nth - 1]


def test_the_network_by_hand_conforms():
    assert told(lines_of_hand()) == []


def test_a_heartbeat_that_stays_away_is_told_with_who_misses_it():
    lines = lines_of_hand()
    beats = [number for number, line in enumerate(lines) if " 705#05" in line]
    del lines[beats[2]]
    found = told(lines)
    assert len(found) == 1 and found[0].startswith(f"run.log:{beats[3]}: error: node 5 pump: its heartbeat comes 80.0"), found
    assert "1017h has 40.000 ms; node 6 valve misses it after 120.000 ms: 40.0" in found[0] and found[0].endswith("[heartbeat-late]")
    del lines[beats[4] - 1], lines[beats[3] - 1]
    found = told(lines)
    assert len(found) == 1 and found[0].startswith(f"run.log:{beats[5] - 2}: error: node 5 pump: its heartbeat comes 160.0"), found
    assert "1017h has 40.000 ms, and node 6 valve misses it after 120.000 ms (at " in found[0] and found[0].endswith("[heartbeat-missed]")


def beats(state, period, start, count):
    """Heartbeats of the pump in a state, from a microsecond on."""
    return [f"({1 + (start + period * number) / 1e6:.6f}) can0 705#{state}\n" for number in range(count)]


def test_a_node_that_may_not_be_configured_may_have_the_heartbeat_of_its_data_sheet():
    """1017h of node 5 is 40 ms, and by the data sheet 90 or 20: so it may be until it is written, or the node is operational."""
    def of_pump(*lines):
        codes = [re.findall(r"\[(heartbeat-late|two-devices)\]$", line) for line in told([*lines]) if "node 5 pump" in line]
        return sum(codes, [])
    write = ["(1.500000) can0 605#2B17100028000000\n", "(1.500300) can0 585#6017100000000000\n"]
    for default, period, code in ((90, 90_000, "heartbeat-late"), (20, 20_000, "two-devices")):
        sheet = NETWORK.replace(b"eds unit 24\n", b"eds unit 25\n")
        put("net.txt", sheet.replace(b"[1017]\nDataType=6\n", b"[1017]\nDataType=6\nDefaultValue=%d\n" % default))
        assert of_pump(*beats("7F", period, 0, 5)) == [] == of_pump(*beats("7F", 40_000, 0, 9))
        assert of_pump(*beats("7F", period, 0, 5), *write, *beats("7F", 40_000, 540_300, 5)) == []
        assert of_pump(*beats("7F", period, 0, 5), *write, *beats("7F", period, 500_300 + period, 5)) == [code]
        assert of_pump(*beats("05", period, 0, 5)) == [code] == of_pump(*beats("7F", period, 0, 5), *beats("05", period, 5 * period, 5))
        assert of_pump(*beats("7F", 100_000, 0, 5)) == ["heartbeat-late"]


def test_the_window_of_a_node_is_judged():
    """1007h of node 5 is 2,000 us. A PDO that comes 4 ms behind its SYNC is told; one that comes 2.5 ms behind isn't, by 500 us of jitter."""
    put("net.txt", NETWORK.replace(b"eds unit 24\n", b"eds unit 26\n[1007]\nDataType=7\n") + b"param 5 1007 0 2000\n")
    frames = conform_judge.plan_of("net.txt", recorded())[1]
    for late, count in ((2_500, 0), (4_000, 1)):
        lines, at = later_pdo(frames, late)
        found = told(lines)
        assert len(found) == count, found
    assert found[0].startswith(f"run.log:{at}: error: message level: 185h: it comes 4.000 ms after SYNC, and the window is 2.000 ms (at "), found


def later_pdo(frames, late):
    """The lines of a run in which the fifth PDO comes so many microseconds behind its SYNC, and its line."""
    pdo = [place for place, (_, identifier, _) in enumerate(frames) if identifier == 0x185][4]
    sync = max(place for place in range(pdo) if frames[place][1] == 0x80)
    moved = (frames[sync][0] + late, *frames[pdo][1:])
    frames = sorted(frames[:pdo] + [moved] + frames[pdo + 1:], key=lambda frame: frame[0])
    return writers.log_of(frames, "log", 1).splitlines(keepends=True), frames.index(moved) + 1


def test_sync_is_judged():
    lines = lines_of_hand()
    syncs = [number for number, line in enumerate(lines) if " 080#" in line]
    without = lines[:syncs[10]] + lines[syncs[10] + 1:]
    assert told(without) == [f"run.log:{syncs[11]}: error: manager: SYNC: one is missing: it comes 20.000 ms after the last one; the period is "
                             f"10.000 ms (at {seconds(lines, syncs[11])} s) [sync-missing]"]
    twice = lines[:syncs[10] + 1] + lines[syncs[10]:]
    assert told(twice) == [f"run.log:{syncs[10] + 2}: error: manager: SYNC: one more comes 0.000 ms after the last one; the period is 10.000 ms "
                           f"(at {seconds(lines, syncs[10])} s) [sync-extra]"]
    counted = lines[:syncs[10]] + [lines[syncs[10]].replace("080#", "080#05")] + lines[syncs[10] + 1:]
    assert told(counted) == [f"run.log:{syncs[10] + 1}: error: manager: SYNC: it has 1 bytes, and no counter is planned "
                             f"(at {seconds(lines, syncs[10])} s) [sync-counter]"]


def test_what_is_written_otherwise_is_told_with_what_is_planned():
    lines = lines_of_hand()
    at = place(lines, "605#2B012000")
    lines[at] = lines[at].replace("2B01200007", "2B01200009")
    assert told(lines) == [f"run.log:{at + 1}: error: node 5 pump: 2001h:00 Mode := 0009h, and 0007h is planned "
                           f"(at {seconds(lines, at)} s) [sdo-value]"]
    _, output, _ = conform("net.txt", "run.log")
    assert "net.txt:34: note: planned here" in output.decode(), output


def seconds(lines, at):
    """The time of a line since the first one."""
    start, time = (float(re.match(r"\(([0-9.]+)\)", lines[each]).group(1)) for each in (0, at))
    return f"{time - start:.6f}"


def test_an_abort_is_told_with_its_meaning():
    lines = lines_of_hand()
    at = place(lines, "585#60012000")
    lines[at] = lines[at].replace("6001200000000000", "8001200031000906")
    assert told(lines) == [f"run.log:{at + 1}: error: node 5 pump: the node aborts the write of 2001h:00 Mode 07 00: 06090031 value too high "
                           f"(at {seconds(lines, at)} s) [sdo-abort]"]


def test_a_value_beyond_its_limit_is_told():
    lines = lines_of_hand()
    at = place(lines, " 185#", 5)
    lines[at] = lines[at].replace("185#00", "185#65")
    assert told(lines) == [f"run.log:{at + 1}: error: message level: 185h: 101 is above the high limit 100 of 2000h:00 Level of node 5 pump "
                           f"(at {seconds(lines, at)} s) [pdo-limit]"]


def test_a_value_beyond_its_limit_that_the_planned_run_has_is_told_at_no_time():
    """The scenario sets 101 for 30 ms, which the receiver doesn't allow: a machine may have that sooner, and 102 is told."""
    script = NETWORK.replace(b"HighLimit=100\n", b"").replace(b"eds unit 24", b"eds unit 23").replace(b"node 6 valve unit", LEVEL_TAKER)
    put("net.txt", script + b"sink level 1 6 2000 0\nevent 1 200000 set 5 2000 0 101\nevent 2 230000 set 5 2000 0 0\n")
    lines = writers.log_of(conform_judge.plan_of("net.txt", recorded())[1], "log", 1).splitlines(keepends=True)
    assert sum(" 185#65" in line for line in lines) == 3 and told(lines) == []
    at = place(lines, " 185#", 5)
    for value, words in (("65", []), ("66", [f"run.log:{at + 1}: error: message level: 185h: 102 is above the high limit 100 of 2000h:00 Taken of "
                                             f"node 6 valve (at {seconds(lines, at)} s) [pdo-limit]"])):
        assert told(lines[:at] + [lines[at].replace("185#00", f"185#{value}")] + lines[at + 1:]) == words


def test_a_cause_is_told_once_with_its_count():
    lines = lines_of_hand()
    places = [number for number, line in enumerate(lines) if " 185#" in line]
    lines = [line.replace("185#00", "185#0000") for line in lines]
    assert told(lines) == [f"run.log:{places[0] + 1}: error: message level: 185h: it has 2 bytes, and 1 are planned ({len(places)} times, from "
                           f"{seconds(lines, places[0])} s to {seconds(lines, places[-1])} s in line {places[-1] + 1}) [pdo-length]"]


def test_an_emergency_is_told_in_words():
    lines = lines_of_hand()
    at = place(lines, " 080#", 8)
    lines.insert(at, lines[at - 1].split(" can0 ")[0] + " can0 086#1042090011220000\n")
    found = told(lines)
    assert len(found) == 1 and (f"run.log:{at + 1}: error: node 6 valve: emergency 4210h: device temperature; error register 09h (generic, "
                                "temperature), 00 11 22 00 00 of the maker") in found[0] and found[0].endswith("[emcy]"), found


def test_identifiers_that_are_no_pdos_are_let_pass():
    """TIME, an emergency message of the manager, LSS, and SDO of nobody's node."""
    lines = lines_of_hand()
    at = place(lines, " 080#", 8)
    stamp = lines[at].split(" can0 ")[0]
    lines[at:at] = [f"{stamp} can0 {frame}\n" for frame in ("100#0000000000A0", "0FF#0000000000000000", "7E5#0000000000000000", "609#4000100000000000")]
    assert told(lines) == []
    lines[at:at] = [f"{stamp} can0 {frame}\n" for frame in ("181#00", "589#4300100000000000", "086#00")]
    assert [line.split(": ", 2)[2].split(" (")[0] for line in told(lines)] == [
        "no TPDO of the plan has the identifier 181h", "node 9: no node of the plan has this number; it is heard",
        "node 6 valve: its emergency message has 1 bytes, not 8"]


def test_findings_are_accepted_by_their_words():
    lines = lines_of_hand()
    at = place(lines, " 080#", 8)
    lines.insert(at, lines[at - 1].split(" can0 ")[0] + " can0 086#0000000000000000\n")
    found = told(lines)
    assert len(found) == 1 and ": warning: node 6 valve: emergency 0000h: no error any more" in found[0], found
    assert conform("--werror", "net.txt", "run.log")[0] == 1
    is_accepted = conform("--werror", "--allow", "emcy 6", "net.txt", "run.log")
    assert is_accepted[0] == 0 and is_accepted[1].startswith(b"no errors, no warnings, 1 accepted; "), is_accepted
    other = conform("--allow", "emcy 5", "net.txt", "run.log")
    assert "--allow: note: nothing is accepted by 'emcy 5'" in other[2], other


def test_json_and_junit_have_the_findings():
    lines = lines_of_hand()
    at = place(lines, " 185#", 5)
    lines[at] = lines[at].replace("185#00", "185#65")
    put("run.log", "".join(lines).encode())
    status, output, _ = conform("--json", "--junit", "report.xml", "net.txt", "run.log")
    whole = json.loads(output.decode())
    finding = whole["findings"][0]
    assert status == 1 and len(whole["findings"]) == 1 and whole["frames"] == len(lines)
    assert (finding["code"], finding["line"], finding["count"], finding["part"]) == ("pdo-limit", at + 1, 1, "message level")
    suite = xml.parse("report.xml").getroot()[0]
    assert suite.get("failures") == "1" and [case.get("name") for case in suite if len(case)] == ["message level"]
    assert {"manager", "identifiers", "bus", "node 5", "node 6"} <= {case.get("name") for case in suite}


def test_the_load_is_told_by_100_ms():
    """At 500 kbit/s a bit takes 2 us. A SYNC of 47 bits, and a PDO of 55 bits, each 10 ms: 204 us of 10 ms are 2.04 %."""
    lines = lines_of_hand()
    put("run.log", "".join(lines).encode())
    load = json.loads(conform("--json", "net.txt", "run.log")[1].decode())["load"]
    beats = sum(200_000 <= float(re.match(r"\(([0-9.]+)", line).group(1)) * 1e6 - 1_000_055 - 55 < 300_000 and " 7" in line for line in lines)
    assert load["window_us"] == 100_000 and len(load["percent"]) == 3, load
    assert abs(load["percent"][1] - (10 * 204 + 110 * beats) / 1000) < 0.25, (load, beats)
    found = told(lines, "--load", "2")
    assert len(found) == 1 and "and 2 % is allowed" in found[0] and found[0].endswith("[load]"), found


def test_a_machine_of_its_own_pace_conforms():
    """No time of it is that of the planned run, and no value; and the same machine with a fault is told."""
    put("net.txt", NETWORK)
    for seed in range(5):
        text = Machine(Dice(seed), 8).log()
        put("run.log", text.encode())
        done = conform("net.txt", "run.log")
        assert done[0] == 0 and re.match(r"run.log:\d+: warning: bus: an error frame: .*\nno errors, 1 warning; ", done[1].decode()), done
        assert "; set aside: 2 frames of 29 bits, 1 error frame; " in done[1].decode(), done[1]
        lines = text.splitlines(keepends=True)
        at = place(lines, " 185#", 300)
        del lines[at]
        found = told(lines)
        assert found[0].endswith("[error-frame]") and len(found) == 2, found
        assert found[1].startswith(f"run.log:{at}: error: message level: 185h: it doesn't come after SYNC; "), found


# Logs.

ODD = ["(0000000002.000000) can0 185#00\n", "(0000000002.000100) can0 00000185#00\n", "(0000000002.000200) can0 185##100\n",
       "(0000000002.000300) can0 20000080#0000000000000000\n", "(0000000002.000400) can0 185#R\n", "(0000000002.000500) can0 185#R1\n"]


def test_other_frames_are_counted_and_set_aside():
    put("odd.log", "".join(ODD).encode())
    rows, log = rows_of("odd.log")
    assert rows == [(1, 2_000_000, "185#", "00")] and dict(log.aside) == {"29-bit": 1, "FD": 1, "error": 1, "remote": 2}
    put("odd.asc", b"date Mon Jan 1 00:00:00 2024\nbase hex  timestamps absolute\n// a comment\n"
        b"   2.000000 1  185             Rx   d 1 00\n   2.000100 1  185x            Rx   d 1 00\n"
        b"   2.000200 CANFD   1 Rx        185                                   1 0 9 12 00 00 00 00 00 00 00 00 00 00 00 00        0    0     3000        0        0        0        0        0\n"
        b"   2.000300 1  ErrorFrame\n   2.000400 1  185             Rx   r\nEnd TriggerBlock\n")
    rows, log = rows_of("odd.asc")
    assert rows == [(4, 2_000_000, "185#", "00")] and dict(log.aside) == {"29-bit": 1, "FD": 1, "error": 1, "remote": 1}
    put("odd.trc", b";$FILEVERSION=2.1\n;$COLUMNS=N,O,T,B,I,d,R,L,D\n      1      2.000 DT 1      0185 Rx -  1    00\n"
        b"      2      2.100 DT 1  00000185 Rx -  1    00\n      3      2.200 FD 1      0185 Rx -  1    00\n"
        b"      4      2.300 RR 1      0185 Rx -  1\n      5      2.400 ER 1         - Rx -  5    04 00 02 00 00\n")
    rows, log = rows_of("odd.trc")
    assert rows == [(3, 2_000, "185#", "00")] and dict(log.aside) == {"29-bit": 1, "FD": 1, "error": 1, "remote": 1}
    put("odd.csv", b"timestamp,arbitration_id,extended,remote,error,dlc,data\n2.0,0x185,0,0,0,1,AA==\n2.1,0x185,1,0,0,1,AA==\n"
        b"2.2,0x185,0,1,0,0,\n2.3,0x0,0,0,1,0,\n")
    rows, log = rows_of("odd.csv")
    assert rows == [(2, 2_000_000, "185#", "00")] and dict(log.aside) == {"29-bit": 1, "error": 1, "remote": 1}


def test_the_formats_by_hand():
    frames = {"log": "(0000000001.000055) can0 701#00\n(0000000001.012345) can0 185#0A64\n",
              "asc": "   0.000055 1  701             Rx   d 1 00\n   0.012345 1  185             Rx   d 2 0A 64\n",
              "trc": "     1)         0.1  Rx         0701  1  00\n     2)        12.3  Rx         0185  2  0A 64\n",
              "trc21": "      1         0.055 DT  1      0701 Rx -  1    00\n      2        12.345 DT  1      0185 Rx -  2    0A 64\n",
              "csv": "1.000055,0x701,0,0,0,1,AA==\n1.012345,0x185,0,0,0,2,CmQ=\n"}
    for form, text in frames.items():
        written = writers.log_of([(55, 0x701, b"\0"), (12_345, 0x185, b"\x0a\x64")], form, 1)
        assert written.endswith(text), (form, written)
        put("two", written.encode())
        rows, _ = rows_of("two")
        assert [row[2:] for row in rows] == [("701#", "00"), ("185#", "0A64")], (form, rows)
        assert rows[1][1] - rows[0][1] == (12_200 if form == "trc" else 12_290), (form, rows)


def test_other_forms_of_asc_and_trc_by_hand():
    put("dec.asc", b"date Fri Nov 27 10:00:00.000 am 2026\nbase dec  timestamps relative\nno internal events logged\nBegin Triggerblock\n"
        b" 0.000000 Start of measurement\n 0.000100 1  389             Rx   d 2  10 100  Length = 236000 BitCount = 122 ID = 389\n"
        b" 0.000200 1  389             Tx   d 1 255\n 0.000000 1  Statistic: D 1 R 0 XD 0 XR 0 E 0 O 0 B 0.00%\nEnd TriggerBlock\n")
    rows, log = rows_of("dec.asc")
    assert rows == [(6, 100, "185#", "0A64"), (7, 300, "185#", "FF")] and dict(log.aside) == {"other": 1}, (rows, log.aside)
    put("two.trc", b";$FILEVERSION=2.0\r\n;$COLUMNS=N,O,T,I,d,l,D\r\n     1      1.100 DT     0185 Rx 2  0A 64\r\n     2      1.250 ST          Rx 4  00 00 00 08\r\n")
    rows, log = rows_of("two.trc")
    assert rows == [(3, 1100, "185#", "0A64")] and dict(log.aside) == {"other": 1}, (rows, log.aside)
    put("one.trc", b";$FILEVERSION=1.1\r\n     1)       1.1  Rx         0185  2  0A 64\r\n     2)       1.3  Error         0008  4  00 19 08 08\r\n"
        b"     3)       1.5  Rx     00000185  2  0A 64\r\n     4)       1.6  Tx         0185  0  RTR\r\n")
    rows, log = rows_of("one.trc")
    assert rows == [(2, 1100, "185#", "0A64")] and dict(log.aside) == {"error": 1, "29-bit": 1, "remote": 1}, (rows, log.aside)
    put("new.trc", b";$FILEVERSION=2.1\n;$COLUMNS=N,O,X,I\n     1      1.100 DT     0185 Rx 2  0A 64\n")
    is_refused(conform(example("io_modules.txt"), "new.trc"), "new.trc:2: cobtool doesn't know these columns of TRC")


def test_what_is_no_log_is_told():
    put("net.txt", NETWORK)
    lines = lines_of_hand()
    put("run.log", "".join(lines[:5]).encode() + b"hello\n" + "".join(lines[5:]).encode())
    is_refused(conform("net.txt", "run.log"), "run.log:6: this is no line of candump -L: hello")
    long = "".join(lines[:-1]) + lines[-1] * 5000
    put("run.log", long.encode()[:-5])
    is_refused(conform("net.txt", "run.log"), f"run.log:{long.count(chr(10))}: the last line is cut")
    put("run.log", long.encode() + b"x" * 200_000)
    is_refused(conform("net.txt", "run.log"), f"run.log:{long.count(chr(10)) + 1}: this line is too long for a log")
    put("run.log.gz", gzip.compress("".join(lines).encode())[:-20])
    is_refused(conform("net.txt", "run.log.gz"), "run.log.gz: it is cut")
    put("run.log", "".join(lines[:9]).encode() + lines[9].replace("can0", "can1").encode())
    is_refused(conform("net.txt", "run.log"), "run.log:10: it has frames of can0 and of can1; --channel takes those of one")
    put("run.log", "".join(line + line.replace("can0", "can1") for line in lines).encode())
    is_conforming(conform("--channel", "can0", "net.txt", "run.log"))
    put("run.log", b"timestamp,arbitration_id,extended,remote,error,dlc,data\n")
    is_refused(conform("net.txt", "run.log"), "run.log: there is no frame in it")
    is_refused(conform("-", "-"), "the standard input can be one file alone")
    put("run.log", "".join(lines).encode())
    is_refused(conform("--timeline", "nosuch/run.html", "net.txt", "run.log"), "nosuch/run.html: No such file or directory")
    is_refused(conform("--junit", "nosuch/x.xml", "net.txt", "run.log"), "nosuch/x.xml: No such file or directory")
    is_refused(conform("--jitter", "-1", "net.txt", "run.log"), "--jitter is 0 to 100,000 microseconds, not -1")


def damaged(data, dice):
    """Bytes of which some are others, more or fewer."""
    for _ in range(dice.one([1, 3, 20])):
        place, size = dice.below(len(data)), dice.below(40)
        data = dice.one([data[:place] + bytes([dice.below(256)]) + data[place + 1:], data[:place] + data[place + size:],
                         data[:place] + data[max(place - size, 0):]])
    return data


def test_damaged_logs_end_with_a_status_and_at_most_a_line():
    put("net.txt", NETWORK)
    frames, ends = conform_judge.plan_of("net.txt", recorded())[1], []
    for seed in range(20):
        dice = Dice(seed)
        put("run.log", damaged(writers.log_of(frames, dice.one(writers.FORMATS), 1).encode(), dice))
        status, output, faults = conform("net.txt", "run.log")
        assert status in (0, 1, 2) and "cobtool itself" not in faults and "Traceback" not in faults, (seed, faults)
        assert (not output and len(faults.splitlines()) == 1) if status == 2 else output and not faults, (seed, status, output, faults)
        ends.append(status)
    assert ends.count(2) >= 5 and len(set(ends)) >= 2, ends


def test_logs_of_can_utils_are_read_alike():
    put("run.log", recording("servo_axes"))
    for words in ([], ["-n"], ["-f"], ["-4"]):
        try:
            subprocess.run(["log2asc", *words, "-I", "run.log", "-O", "run.asc", "can0"], check=True)
        except OSError:
            raise Skipped("log2asc isn't installed") from None
        is_alike("run.asc", 100 if words == ["-4"] else 1)


def is_alike(path, resolution=1):
    """A log has the frames of the log of can-utils, and conforms as that does."""
    ours, others = rows_of("run.log")[0], rows_of(path)[0]
    shift = others[0][1] - ours[0][1]
    assert [row[2:] for row in ours] == [row[2:] for row in others], path
    assert all(abs(other[1] - shift - own[1]) <= resolution for own, other in zip(ours, others)), path
    is_conforming(conform(example("servo_axes.txt"), path))


def test_logs_of_python_can_are_read_alike():
    put("run.log", recording("servo_axes"))
    put("record_them.py", b"import can\nframes = list(can.LogReader('run.log'))\n"
        b"for name in ('p.log', 'p.asc', 'p.trc', 'p.csv'):\n    log = can.Logger(name)\n"
        b"    for frame in frames:\n        log.on_message_received(frame)\n    log.stop()\n")
    if not os.path.exists(PYTHON_CAN) or subprocess.run([PYTHON_CAN, "record_them.py"], stderr=subprocess.PIPE).returncode:
        raise Skipped("python3-can isn't installed")
    for path in ("p.log", "p.asc", "p.trc", "p.csv"):
        is_alike(path)


def test_python_can_reads_what_candump_writes():
    for form, name in (("log", "w.log"), ("asc", "w.asc"), ("trc", "w.trc"), ("trc21", "w21.trc"), ("csv", "w.csv")):
        put(name, recording("servo_axes", form))
    put("read_them.py", b"import can\nfor name in ('w.log', 'w.asc', 'w.trc', 'w21.trc', 'w.csv'):\n"
        b"    print(' '.join(f'{m.arbitration_id:X}.{m.data.hex()}' for m in can.LogReader(name)))\n")
    done = subprocess.run([PYTHON_CAN, "read_them.py"], stdout=subprocess.PIPE, stderr=subprocess.PIPE) if os.path.exists(PYTHON_CAN) else None
    if not done or done.returncode:
        raise Skipped("python3-can isn't installed")
    ours = " ".join(f"{int(key[:3], 16):X}.{data.lower()}" for _, _, key, data in rows_of("w.log")[0])
    assert done.stdout.decode().splitlines() == [ours] * 5
