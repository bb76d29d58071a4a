"""TIME, the time stamp that the manager sends in version 3: what each tool says of it."""
import re

from helper import is_fine, put, recorded, recorded_replies, run

from cobench_tools import meaning, session
from cobench_tools.hints import Hints
from cobench_tools.project import Project

# SYNC each 10 ms, TIME each 20: day 17,000 is 2030-07-18.
NETWORK = (b"version 3\nmanager 127 10000 0 500\nhorizon 400000\neds unit 2\n[2000]\nDataType=5\nnode 5 pump unit\n"
           b"time-period 20000 17000\n")


def test_a_time_stamp_is_told_as_day_and_time():
    for data, moment in (("000000000000", "1984-01-01 00:00:00.000"), ("010000006842", "2030-07-18 00:00:00.001"),
                         ("5A265C020100", "1984-01-02 10:59:53.562"), ("FFFFFFFFFFFF", "2163-06-06 74:33:55.455")):
        assert meaning.moment_text(bytes.fromhex(data)) == moment


def test_explain_says_when_it_is():
    put("net.txt", b"version 3\nhorizon 400000\ntrace\n")
    put("replies", b"ok\nok\nlines 3\n0000020153 100 [6] 14 00 00 00 68 42\n0000030000 100 [5] 14 00 00 00 68\n0000040000 100 [6] 00 00 00 A0 00 00\n")
    is_fine(run("explain", "net.txt", "replies"),
            b"0000020153 100 TIME 2030-07-18 00:00:00.020\n0000030000 100 PDO: 14 00 00 00 68\n0000040000 100 TIME 1984-01-01 00:00:00.000\n")


def test_load_has_it_with_its_bits_and_its_deadline():
    put("net.txt", NETWORK)
    status, output, faults = run("load", "--cobench", recorded(), "net.txt")
    row = next(line for line in output.decode().splitlines() if line.startswith("100h"))
    assert status == 0 and not faults and row.split()[1:7] == ["TIME", "manager", "6", "each", "20", "ms"], output
    assert re.split(" {2,}", row)[5:9] == ["95", "115", "95", "115"] and row.endswith("20.000  yes"), row
    put("none.txt", NETWORK.replace(b"time-period 20000 17000\n", b"time-period 0 17000\n"))
    assert b"100h" not in run("load", "--cobench", recorded(), "none.txt")[1]


def test_matrix_names_it():
    put("net.txt", NETWORK)
    assert b"SDO timeout 500 ms; TIME each 20,000 us, from 2030-07-18 on\n" in run("matrix", "--cobench", recorded(), "net.txt")[1]


def test_why_a_line_is_refused():
    """By the version, by each limit, and what keeps a script from an older version."""
    def why(lines):
        put("net.txt", lines)
        pairs = session.run("net.txt", recorded()).pairs
        command, reply = pairs[-1]
        project = Project()
        for each, accepted in pairs[:-1]:
            if accepted.is_accepted():
                project.take(each)
        assert not reply.is_accepted(), lines
        return Hints().of(command, reply, project)
    assert why(b"version 2\ntime-period 1000 5\n") == "time-period is of version 3: the command `version 3` comes first"
    assert why(b"version 3\ntime-period 999 5\n") == "US is 0 or at least 1,000 microseconds, not 999"
    assert why(b"version 3\ntime-period 1000 65536\n") == "DAYS is 0 to 65,535, not 65,536"
    assert why(b"version 3\ntime-period 1000 5\nversion 2\n") == "a time-period, which is of version 3: time-period 0 0 takes it away"


def test_diff_says_what_is_other():
    put("a.txt", NETWORK)
    for old, new, lines in ((b"20000 17000", b"30000 17000", ["TIME each [us]: 20000 -> 30000"]),
                            (b"20000 17000", b"20000 17001", ["first day of TIME: 17000 -> 17001"]),
                            (b"time-period 20000 17000", b"time-period 0 5", ["TIME each [us]: 20000 -> none", "first day of TIME: 17000 -> none"])):
        put("b.txt", NETWORK.replace(old, new))
        status, output, faults = run("diff", "--cobench", recorded(), "a.txt", "b.txt")
        settings = output.decode().split("\n\n")[0].splitlines()
        assert status == 1 and not faults and settings == ["Settings", *(f"  {line}" for line in lines)], output


def stamps(lines):
    return [number for number, line in enumerate(lines) if " 100#" in line]


def told(lines, script="net.txt"):
    """What conform tells of a log."""
    put("run.log", "".join(lines).encode())
    status, output, faults = run("conform", "--cobench", recorded(), script, "run.log")
    assert not faults, faults
    lines = [line for line in output.decode().splitlines() if line.startswith("run.log:") and ": note: " not in line]
    return [line.split(": ", 2)[2].split(" (")[0] + line[line.rindex(" ["):] for line in lines]


def test_conform_judges_that_it_comes():
    """One may be missing, as each may be replaced while it waits; two may not."""
    put("net.txt", NETWORK)
    put("replies", recorded_replies(NETWORK + b"trace\n"))
    lines = run("candump", "replies")[1].decode().splitlines(keepends=True)
    places = stamps(lines)
    assert len(places) == 19 and told(lines) == []
    assert told(lines[:places[9]] + lines[places[9] + 1:]) == []
    gap = [line for number, line in enumerate(lines) if number not in places[9:12]]
    assert told(gap) == ["time-period: TIME: it comes 80.000 ms after the last one; the period is 20.000 ms [time-missing]"]
    over = [line for number, line in enumerate(lines) if number not in places[9:]]
    assert told(over) == ["time-period: TIME: none comes any more; the period is 20.000 ms [time-missing]"]
    short = [line.replace("100#C8", "100#") if number == places[9] else line for number, line in enumerate(lines)]
    assert told(short) == ["time-period: TIME: it has 5 bytes, not 6 [time-bytes]"]
    none = [line for number, line in enumerate(lines) if number not in places]
    assert told(none) == ["time-period: TIME: there is none; the period is 20.000 ms [time-missing]"]
    put("none.txt", NETWORK.replace(b"time-period 20000 17000\n", b""))
    assert told(lines, "none.txt") == []
    other = b"other 11-bit identifiers"
    assert other in run("conform", "--cobench", recorded(), "none.txt", "run.log")[1]
    assert other not in run("conform", "--cobench", recorded(), "net.txt", "run.log")[1]


def test_import_says_that_no_file_says_how_often():
    sheet = b"[1012]\nDataType=7\nDefaultValue=%s\n[2000]\nDataType=5\n[DeviceComissioning]\nNodeID=5\nNodeName=pump\nBaudrate=250\n"
    for value, is_told in ((b"0x40000100", True), (b"0x80000100", False)):
        put("x.dcf", sheet % value)
        assert (b"pump sends TIME (1012h), and no file says how often: time-period US DAYS" in run("import", "x.dcf")[1]) == is_told
