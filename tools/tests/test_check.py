"""`check`: each kind of finding with its line and cause, what is accepted, and the forms of its report."""
import json
import os
import re
from xml.etree import ElementTree

from helper import example, file, is_refused, kept, put, recorded, recorded_replies, run, stand_in


def check(*words, given=b""):
    """The status, the lines and the faults of `check`, by recorded replies."""
    status, output, faults = run("check", "--cobench", recorded(), *words, given=given)
    return status, output.decode().splitlines(), faults


def valves():
    """A script with each diagnostic and its data sheet, in the folder of this test."""
    put("valve.eds", kept("check/valve.eds"))
    return put("valves.txt", kept("check/valves.txt"))


def drives(*lines):
    """A script whose first eight lines are a data sheet of a heartbeat and an identity, and then these lines."""
    sheet = ["eds drive 7", "[1017]", "DataType=6", "[1018sub1]", "ParameterName=Vendor", "DataType=7", "DefaultValue=5",
             "AccessType=rw"]
    return put("net.txt", "".join(f"{line}\n" for line in sheet + list(lines)).encode())


def test_check_tells_the_line_and_the_cause_of_each_diagnostic():
    status, lines, faults = check(valves())
    assert status == 1 and not faults
    assert lines == kept("check/valves.checked.txt").decode().splitlines()


def test_check_tells_each_diagnostic_that_diag_has():
    findings = json.loads("\n".join(check("--json", "--sort", "code", valves())[1]))["findings"]
    diagnostics = [each["words"] for each in findings if re.match("[EW][0-9]", each["code"])]
    codes = {line.split()[0] for line in diagnostics}
    assert codes == {f"E{number:02}" for number in range(1, 17)} - {"E13"} | {f"W{number}" for number in range(17, 23)}
    assert diagnostics == sorted(diagnostics, key=lambda line: int(line[1:3])) and len(diagnostics) == 51


def vendors():
    """A script of version 3 with each diagnostic of PDOs as vendors make them, and its data sheet, in the folder of this test."""
    put("vendor.eds", kept("check/vendor.eds"))
    return put("vendors.txt", kept("check/vendors.txt"))


def test_check_tells_the_cause_of_each_diagnostic_of_version_3():
    status, lines, faults = check("--allow", "no-sink", vendors())
    assert status == 1 and not faults
    assert lines == kept("check/vendors.checked.txt").decode().splitlines(), "\n".join(lines)
    codes = {line[-4:-1] for line in lines}
    assert {"E05", "E10", "E12", "E13", "E15", "W23", "W24", "E26", "W28"} <= codes


def test_check_tells_of_receives_that_are_sooner_than_their_message():
    """At each second SYNC of 10 ms; at changes, at the latest after 100 ms or never; and one of type 0."""
    put("vendor.eds", kept("check/vendor.eds"))
    for kind, event, time, said in ((2, 0, 20, "each 20.000 ms"), (2, 0, 21, None), (255, 100, 100, "each 100 ms at the latest"), (255, 100, 101, None),
                                    (255, 0, 60000, "when a value changes alone"), (0, 0, 500, "when a value changes alone"), (255, 0, 0, None)):
        put("net.txt", (f"version 3\nmanager 127 10000 0 500\neds encoder <vendor.eds\nnode 5 a encoder\nnode 6 b encoder\nhorizon 0\n"
                        f"message m 5 2 {kind} 0 {event} 0\nsource m 1 6041 0\nsink m 1 6 6040 0\nreceive m 6 3 {time}\n").encode())
        lines = [line for line in check("--allow", "E26", "net.txt")[1] if "[receive-time]" in line]
        expected = f"net.txt:10: warning: message m: node 6 b expects it within {time} ms, and it comes {said} [receive-time]"
        assert lines == ([expected] if said else []), (kind, event, time, lines)


def test_check_passes_on_a_diagnostic_that_it_does_not_know():
    text = run("expand", drives("node 5 pump drive", "event 1 1000 set 5 1017 0 0"))[1] + b"diag\ntrace\ncdcf 5\n"
    replies = recorded_replies(text)
    newer = stand_in(text, replies.replace(b"lines 0\n", b"lines 2\nW29 event 1\nW31 node 5\n", 1))
    output = run("check", "--cobench", newer, "net.txt")[1].decode()
    assert "net.txt:10: warning: event 1: cobench says so [W29]\n" in output and "net.txt:9: warning: node 5 pump: cobench says so [W31]\n" in output, output


def test_check_accepts_diagnostics_of_version_3():
    words = "W23", "W24 rpdo 7 4", "E26 limit 6 1801 05", "W28 receive a_position 7"
    lines = check(*(each for word in words for each in ("--allow", word)), vendors())[1]
    assert not [line for line in lines if "W23" in line or "W24" in line] and sum("[E26]" in line for line in lines) == 3
    assert sum("[W28]" in line for line in lines) == 1, lines


def test_check_tells_that_all_is_well():
    status, lines, faults = check(example("io_modules.txt"))
    assert (status, faults) == (0, "") and lines == ["no errors, no warnings; 3 of 3 nodes booted by 60.244 ms"], lines


def test_check_tells_refused_commands_with_their_causes():
    status, lines, _ = check(example("servo_axes.txt"))
    places = [re.match(r".*/(servo_axes.txt:\d+): error: (.*) \[refused\]", line).groups() for line in lines[:3]]
    assert status == 1 and places[0] == (
        "servo_axes.txt:93", "param 3 1017 0 100: refused 4 Unknown: node 3 isn't there; there are: 1, 2, 10"), places
    assert [place for place, _ in places] == ["servo_axes.txt:93", "servo_axes.txt:94", "servo_axes.txt:96"]
    assert lines[3].endswith("servo_axes.txt:99: warning: event 8: its time, 1,500.000 ms, is behind the horizon, 330.000 ms: "
                             "it never happens [late-event]") and len(lines) == 5
    assert lines[-1] == "3 errors, 1 warning; 3 of 3 nodes booted by 103.600 ms"


def test_check_tells_of_boots_that_fail_or_never_end():
    drives("bitrate 10", "manager 127 0 0 1", "node 5 pump drive", "node 6 fan drive", "event 1 0 power 6 off")
    assert check("net.txt")[:2] == (1, [
        "net.txt:11: error: node 5 pump: failed to boot at 6.500 ms: no answer in 1 ms; last: no SDO frame [failed]",
        "net.txt:12: error: node 6 fan: isn't configured at the end, 1,000.000 ms: it sent no boot-up message; "
        "event 1 has switched it off [unconfigured]",
        "2 errors, no warnings; 0 of 2 nodes booted"])
    drives("node 5 pump drive", "event 1 56 set 5 1018 1 7", "node 6 late drive", "horizon 400")
    assert check("net.txt")[:2] == (1, [
        "net.txt:9: error: node 5 pump: failed to boot at 0.277 ms: it isn't the device of its data sheet; "
        "last: 1018h:01 Vendor = 00000007h [failed]",
        "net.txt:11: error: node 6 late: isn't configured at the end, 0.400 ms: its boot began at 0.332 ms; "
        "last: no SDO frame; the horizon is too short for it [unconfigured]",
        "2 errors, no warnings; 0 of 2 nodes booted"]), check("net.txt")


def test_check_finds_lines_in_other_files_and_in_blocks():
    put("base.txt", b"# base\neds d 3\n[1017]\nDataType=6\nDefaultValue=x\nnode 5 pump d\n")
    put("net.txt", b"<base.txt\nparam 5 1018 1 5\nnode 6 fan nodrive\n")
    found = [
        "net.txt:3: error: node 6 fan nodrive: refused 4 Unknown: eds nodrive isn't there; there are: d [refused]",
        "net.txt:2: error: node 5 pump: 1018h:01: data sheet d has no object 1018h [E01]",
        'base.txt:5: error: node 5 pump: 1017h:00: DefaultValue "x" is no UNSIGNED16: a number is decimal, 0x and '
        "hexadecimal, or $NODEID+number; 0 is taken for it [E02]"]
    assert check("--sort", "code", "net.txt")[1][:-1] == found and check("net.txt")[1][:-1] == found[::-1]
    assert check("-", given=b"node 5 pump d\n")[1][0] == (
        "<stdin>:1: error: node 5 pump d: refused 4 Unknown: eds d isn't there; there are: none [refused]")


def test_check_accepts_what_the_user_accepts():
    drives("node 5 pump drive", "param 5 3000 0 1", "param 5 3001 0 1", "param 9 1017 0 1")
    found = check("net.txt")[1]
    assert len(found) == 4 and found[-1].startswith("3 errors")
    status, lines, faults = check("--allow", "E01 param 5 3000", "net.txt")
    assert status == 1 and not faults and lines == [found[1], found[2], found[3].replace("3 errors, no warnings", "2 errors, no warnings, 1 accepted")]
    put("accepted.txt", b"# of the vendor\nE01 param 5   # both\nrefused param 9\n\nE02 default 5\n")
    status, lines, faults = check("--allow-from", "accepted.txt", "net.txt")
    assert status == 0 and lines == ["no errors, no warnings, 3 accepted; 1 of 1 node booted by 0.277 ms"], lines
    assert faults == "accepted.txt:5: note: nothing is accepted by 'E02 default 5'\n"
    assert check("--allow", "E01 param 5 300", "net.txt")[1] == found


def test_check_can_take_warnings_for_errors():
    put("net.txt", b"eds d 3\n[1017]\nDataType=6\nDataType=7\nnode 5 pump d\n")
    status, lines, _ = check("net.txt")
    assert status == 0 and lines[0] == 'net.txt:4: warning: data sheet d: "DataType=7": line 2 gives the key first [W20]'
    status, lines, _ = check("--werror", "net.txt")
    assert status == 1 and ": error: " in lines[0] and lines[1].startswith("1 error, no warnings")
    assert check("--werror", "--allow", "W20 eds d", "net.txt")[0] == 0


def test_check_tells_of_values_of_pdo_objects():
    put("x.dcf", b"[1400sub1]\nDataType=7\nParameterValue=0x201\n")
    put("net.txt", b"eds x <x.dcf\nnode 5 pump x\n")
    status, lines, faults = check("net.txt")
    assert status == 0 and not faults and lines[0] == (
        "x.dcf:1: warning: data sheet x: 1400h: it is the communication object of a PDO, and there is no mapping object 1600h [sheet]")
    assert lines[1] == (
        "x.dcf:3: warning: data sheet x: 1 value of a PDO object is not used, as messages make them; "
        "`cobtool import` makes messages of them [pdo-values]")


def test_check_merges_what_holds_of_many_nodes():
    put("net.txt", b"eds d 3\n[1017]\nDataType=6\nDefaultValue=x\n" + b"".join(b"node %d n%d d\n" % (n, n) for n in range(1, 7)))
    status, lines, _ = check("net.txt")
    assert status == 1 and len(lines) == 2 and lines[1].startswith("6 errors")
    assert lines[0].startswith("net.txt:4: error: node 1 n1, node 2 n2, node 3 n3, node 4 n4, and 2 more: 1017h:00: Default")


def test_the_report_in_json_and_junit():
    valves()
    assert run("check", "--cobench", recorded(), "--junit", "report.xml", "valves.txt")[0] == 1
    suite = ElementTree.parse("report.xml").getroot()[0]
    failed = {case.get("name"): case.find("failure").text for case in suite if case.find("failure") is not None}
    assert suite.get("tests") == str(len(suite)) and suite.get("failures") == str(len(failed))
    assert failed["commands"].startswith("valves.txt:70: error: ") and "[E14]" in failed["message h_reserved"]
    cases = {case.get("name"): case for case in suite}
    assert "[W20]" in cases["eds valve"].find("system-out").text and "eds valve" not in failed
    assert len(cases["message a_clean"]) == 0 and os.listdir(".").count(".report.xml.new") == 0
    whole = json.loads("\n".join(check("--json", "--allow", "E", "--allow", "E08", "valves.txt")[1]))
    assert whole["status"] == 1 and whole["errors"] == 38 and whole["warnings"] == 28
    assert [(each["file"], each["line"], each["notes"]) for each in whole["findings"] if each["accepted"]] == [
        ("valves.txt", 41, [{"file": "valves.txt", "line": 44, "text": "sink 3 is of node 6 right, which sends the message"}])]
    assert whole["nodes"][0] == {"node": 5, "name": "left", "configured_us": 2275}


def test_check_says_why_it_cannot():
    valves()
    is_refused(run("check", "--cobench", '"', "valves.txt"), 'the program ": No closing quotation')
    is_refused(run("check", "--cobench", "/nosuch", "valves.txt"), "/nosuch: No such file")
    is_refused(run("check", "--cobench", recorded(), "--junit", "no/report.xml", "valves.txt"), "no/report.xml: No such file")
    is_refused(run("check", "--cobench", recorded(), "--junit", "/dev/full", "valves.txt"), "/dev/full: No space left")
    is_refused(run("check", "--cobench", recorded(), "--allow-from", "nosuch", "valves.txt"), "nosuch: No such file")
    is_refused(run("check", "--cobench", recorded(), "--allow", " ", "valves.txt"), "--allow has no words")
