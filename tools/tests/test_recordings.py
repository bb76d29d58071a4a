"""Recordings as they are: error frames, remote frames, foreign frames in the load, what candump prints, parts, cuts, clocks set back."""
import gzip
import os
import re
import subprocess

from helper import COBTOOL, Skipped, example, file, is_refused, put, recorded, run

from cobench_tools.conform.load import Load
from cobench_tools.logs import source
from cobench_tools.logs.rows import ERROR, EXTENDED, REMOTE, Aside

DEBIAN_PYTHON = "/usr/bin/python3"
SCRIPT = example("servo_axes.txt")


def conform(*words):
    return run("conform", "--cobench", recorded(), *words)


def lines_of_run():
    """The planned run of servo_axes as a log, line by line: 428 frames from 1.000055 s on."""
    return run("candump", example("servo_axes.replies.txt"))[1].decode().splitlines(keepends=True)


def told(lines, *words):
    """What is told of a log, and the status."""
    put("run.log", "".join(lines).encode())
    status, output, faults = conform(*words, SCRIPT, "run.log")
    assert not faults, faults
    return status, [line for line in output.decode().splitlines() if ": note: " not in line]


def stamp(line):
    return int(line[1:11]) * 1_000_000 + int(line[12:18])


def at(time, rest):
    return f"({time // 1_000_000:010}.{time % 1_000_000:06}) can0 {rest}\n"


def between(lines, place, *rests):
    """The log with frames behind a line, a microsecond apart."""
    time = stamp(lines[place])
    return lines[:place + 1] + [at(time + n, rest) for n, rest in enumerate(rests, 1)] + lines[place + 1:]


def test_the_planned_run_itself_has_no_finding():
    assert told(lines_of_run())[1][0].startswith("no errors, no warnings; 428 frames")


def test_error_frames_are_a_finding_with_first_and_last_line():
    lines = lines_of_run()
    lines = between(lines, 299, "20000008#0000000000000000", "20000008#0000000000000000")
    lines = between(lines, 350, "20000008#0000000000000000")
    status, found = told(lines)
    first, last = stamp(lines[300]) - stamp(lines[0]), stamp(lines[351]) - stamp(lines[0])
    assert found[0] == (f"run.log:301: warning: bus: an error frame: a node has seen a fault on the bus, or wasn't understood (3 times, from "
                        f"0.{first:06} s to 0.{last:06} s in line 352) [error-frame]"), found[0]
    assert status == 0 and found[1].startswith("no errors, 1 warning; 428 frames in "), found
    assert told(lines, "--werror")[0] == 1 and told(lines, "--allow", "error-frame")[1][0].startswith("no errors, no warnings, 1 accepted")


def test_remote_frames_are_findings_of_what_they_ask_for():
    lines = between(lines_of_run(), 300, "181#R", "701#R", "7AB#R")
    found = told(lines)[1]
    assert [re.sub(r" \(at .*\)", "", line) for line in found[:3]] == [
        "run.log:302: warning: message x_actual: a remote frame asks for 181h, and its COB-ID allows none [remote-frame]",
        "run.log:303: warning: node 1 x_axis: a remote frame asks for 701h, which is node guarding, and isn't planned [remote-frame]",
        "run.log:304: warning: a remote frame asks for 7ABh [remote-frame]"], found
    assert found[3].startswith("no errors, 3 warnings; 428 frames"), found[3]


def test_the_load_counts_every_frame():
    # At 1 Mbit/s, by ISO 11898: 47 + 8 n bits of 11-bit frames, 67 + 8 n of 29-bit ones, an error frame 6 + 8 + 3.
    load = Load(1)
    load.planned = frozenset(["181#"])
    other = [Aside(EXTENDED, 200, "can0", 0x18FEF100, "00" * 8), Aside(REMOTE, 400, "can0", 0x181), Aside(ERROR, 500)]
    load.add(source.Block([(100, "181#", "00" * 8), (300, "123#", "0000"), (1_000, "181#", "00" * 8)], [1, 3, 6], other))
    assert load.bits == [111 + 131 + 63 + 47 + 17 + 111] and load.start == 100 and load.last == 1_000
    assert load.most == [135 + 160 + 75 + 55 + 23 + 135]
    assert {words: round(share * 9) for words, share in load.whose().items()} == {
        "planned": 222, "other 11-bit identifiers": 63, "frames of 29 bits": 131, "remote frames": 47, "error frames": 17}


def shares_of(output):
    """The load of the summary, and whose it is."""
    found = re.search(r"^load ([0-9.]+) %(?: \((.*?)\))?, with", output, re.MULTILINE)
    return float(found.group(1)), found.group(2)


def test_foreign_frames_are_in_the_load_of_the_summary():
    lines = lines_of_run()
    alone, whose = shares_of("\n".join(told(lines)[1]))
    assert whose is None
    # 400 frames of 29 bits and 8 bytes, 131 bits of 1 us each.
    foreign = [at(1_010_000 + 700 * n, "18FEF100#0011223344556677") for n in range(400)]
    mixed = sorted(lines + foreign, key=stamp)
    load, whose = shares_of("\n".join(told(mixed)[1]))
    span = (stamp(lines[-1]) - stamp(lines[0])) / 1000
    expected = 100 * 52.4 / span
    assert abs(load - alone - expected) < .15, (load, alone, expected)
    assert whose == f"{alone:.1f} % planned, {expected:.1f} % frames of 29 bits", whose


def test_a_frame_that_waits_for_foreign_ones_is_not_late():
    """A heartbeat waits for 29-bit frames that have the bus before it, without a gap; without them it is late."""
    lines = lines_of_run()
    place = [n for n, line in enumerate(lines) if " 701#05" in line][1]
    due, wait = stamp(lines[place]), 12_000
    lines[place] = at(due + wait, "701#05")
    alone = sorted(lines, key=stamp)
    assert [line for line in told(alone)[1] if "[heartbeat" in line], "it is late"
    burst = [at(due - 60 + 131 * n, "00FEF100#0011223344556677") for n in range(1, wait // 131)]
    found = told(sorted(lines + burst, key=stamp))[1]
    assert not [line for line in found if "[heartbeat" in line], found


def test_the_bit_rate_of_the_bus_may_be_another():
    put("run.log", "".join(lines_of_run()).encode())
    slow, fast = (shares_of(conform("--bitrate", rate, SCRIPT, "run.log")[1].decode())[0] for rate in ("500", "1000"))
    assert shares_of(conform(SCRIPT, "run.log")[1].decode())[0] == fast and abs(slow - 2 * fast) < .11, (slow, fast)


# What candump prints.

def printed(lines, form):
    """The log as candump prints it on a terminal, with a time of this form or with none."""
    found, before, first = [], stamp(lines[0]), stamp(lines[0])
    for line in lines:
        time, (identifier, data) = stamp(line), line.split()[2].split("#")
        front = {"": "", "a": f" ({time // 1_000_000:010}.{time % 1_000_000:06})", "z": f" ({(time - first) // 1_000_000:03}.{(time - first) % 1_000_000:06})",
                 "d": f" ({(time - before) // 1_000_000:03}.{(time - before) % 1_000_000:06})",
                 "A": f" (2026-11-30 21:15:{time // 1_000_000:02}.{time % 1_000_000:06})"}[form]
        bytes_ = " ".join(data[place:place + 2] for place in range(0, len(data), 2))
        found.append(f"{front}  can0  {identifier}   [{len(data) // 2}]  {bytes_}\n")
        before = time
    return found


def rows_of(path):
    log = source.Log(path)
    return [row for block in log.blocks() for row in block.rows], log


def test_what_candump_prints_is_read_with_each_kind_of_time():
    lines = lines_of_run()
    put("run.log", "".join(lines).encode())
    ours = rows_of("run.log")[0]
    for form in ("a", "d", "z", "A"):
        put("printed", "".join(printed(lines, form)).encode())
        rows, log = rows_of("printed")
        assert [(time - rows[0][0], *rest) for time, *rest in rows] == [(time - ours[0][0], *rest) for time, *rest in ours], form
        done = conform(SCRIPT, "printed")
        assert done[0] == 0 and done[1].decode().startswith("no errors, no warnings; 428 frames in 0.32"), done


def test_without_times_only_what_needs_none_is_judged():
    lines = printed(lines_of_run(), "")
    put("printed", "".join(lines).encode())
    done = conform(SCRIPT, "printed")
    assert done[0] == 0 and done[1].decode().startswith("no errors, no warnings; 428 frames\n"), done
    assert "the log has no times: neither the load nor anything else that needs them is judged" in done[1].decode()
    place = next(n for n, line in enumerate(lines) if " 601 " in line and " 23 7D 60 02 " in line)
    lines[place] = lines[place][:-12] + "80 84 1E 00\n"
    put("printed", "".join(lines).encode())
    done = conform(SCRIPT, "printed")
    assert done[0] == 1 and f"printed:{place + 1}: error: node 1 x_axis: 607Dh:02" in done[1].decode() and "(once) [sdo-value]" in done[1].decode(), done


def test_other_lines_that_candump_prints():
    put("printed", b"  can0  185   [1]  00\n  can0  00000185   [1]  00\n  can0  185  [01]  00\n  can0  185   [0]  remote request\n"
        b"  can0  20000080   [8]  00 00 00 00 00 00 00 00   ERRORFRAME\n\tprotocol-violation{{}{}}\n  can0  RX - -  186   [2]  41 42   'AB'\n")
    rows, log = rows_of("printed")
    assert [row[1:] for row in rows] == [("185#", "00"), ("186#", "4142")] and not log.has_times
    assert dict(log.aside) == {"29-bit": 1, "FD": 1, "error": 1, "remote": 1}
    put("printed", b"  can0  185   [2]  00\n")
    is_refused(conform(SCRIPT, "printed"), "printed:1: this is no frame:   can0  185   [2]  00")


def test_log2long_of_can_utils_is_read_alike():
    lines = lines_of_run()
    put("run.log", "".join(lines).encode())
    try:
        long = subprocess.run(["log2long"], input=file("run.log"), stdout=subprocess.PIPE, check=True).stdout
    except OSError:
        raise Skipped("log2long isn't installed") from None
    put("long", long)
    assert rows_of("long")[0] == rows_of("run.log")[0]


# Parts.

def test_a_part_is_chosen_by_seconds_and_by_lines():
    lines = lines_of_run()
    put("run.log", "".join(lines).encode())
    start = stamp(lines[0])
    within = [line for line in lines if 100_000 <= stamp(line) - start <= 200_000]
    done = conform("--from", "0.1", "--to", "0.2", SCRIPT, "run.log")
    assert f"no errors, no warnings; {len(within)} frames in " in done[1].decode(), done
    done = conform("--from", "L200", "--to", "L300", SCRIPT, "run.log")
    assert "no errors, no warnings; 101 frames in " in done[1].decode(), done
    for text in ("x", "-1", "L", "1e3", "\u0661"):
        is_refused(conform(f"--from={text}", SCRIPT, "run.log"), "--from is seconds of the log, as 12.5, or a line of it, as L1234, not ")
    is_refused(conform("--from", "100", SCRIPT, "run.log"), "run.log: there is no frame in it from there to there")


def test_what_is_told_of_a_part_has_the_lines_and_seconds_of_the_log():
    lines = lines_of_run()
    lines = between(lines, 299, "20000008#0000000000000000")
    whole, part = told(lines)[1][0], told(lines, "--from", "L250")[1][0]
    assert whole == part and whole.startswith("run.log:301: "), part


def test_lines_outside_of_the_part_need_not_be_readable():
    lines = lines_of_run()
    put("run.log", "".join(lines[:100] + ["hello\n"] + lines[100:300] + ["\0\1\2 what\n"] + lines[300:]).encode())
    is_refused(conform(SCRIPT, "run.log"), "run.log:101: this is no line of candump -L: hello")
    done = conform("--from", "L102", "--to", "L301", SCRIPT, "run.log")
    assert "no errors, no warnings; 200 frames in " in done[1].decode(), done


# Cuts and clocks.

def test_a_cut_last_line_is_taken_where_that_is_accepted():
    lines = lines_of_run()
    text = "".join(lines).encode()[:-7]
    put("run.log", text)
    is_refused(conform(SCRIPT, "run.log"), "run.log:428: the last line is cut")
    done = conform("--allow", "cut", SCRIPT, "run.log")
    assert done[0] == 0 and not done[2] and done[1].decode().startswith("no errors, no warnings, 1 accepted; 427 frames"), done
    packed = gzip.compress("".join(lines).encode())
    put("run.log.gz", packed[:-9])
    is_refused(conform(SCRIPT, "run.log.gz"), "run.log.gz: it is cut")
    done = conform("--allow", "cut log", SCRIPT, "run.log.gz")
    assert done[0] == 0 and re.match(r"no errors, no warnings, 1 accepted; 4[0-9]{2} frames", done[1].decode()), done


def test_a_clock_that_is_set_back_is_one_finding_and_no_end():
    lines = lines_of_run()
    place = 300
    back = lines[:place] + [at(stamp(line) - 500_000, line.split()[2]) for line in lines[place:]]
    status, found = told(back)
    step = 500_000 - (stamp(lines[place]) - stamp(lines[place - 1]))
    assert status == 1 and found[0].startswith(f"run.log:{place + 1}: error: log: the recorder's clock is set back by {step / 1000:.3f} ms; "), found
    assert [line for line in found if "[clock-back]" in line] == found[:1] and any("; 428 frames in " in line for line in found), found


# python-can.

def test_blf_is_read_by_python_can_and_else_what_is_missing_is_named():
    lines = lines_of_run()
    put("run.log", "".join(between(lines, 300, "18FEF100#00")).encode())
    put("make.py", b"import can\nlog = can.Logger('run.blf')\nfor frame in can.LogReader('run.log'):\n    log.on_message_received(frame)\nlog.stop()\n")
    if not os.path.exists(DEBIAN_PYTHON) or subprocess.run([DEBIAN_PYTHON, "make.py"], stderr=subprocess.PIPE).returncode:
        raise Skipped("python3-can isn't installed")
    done = subprocess.run([DEBIAN_PYTHON, COBTOOL, "conform", "--cobench", recorded(), SCRIPT, "run.blf"], stdout=subprocess.PIPE, stderr=subprocess.PIPE)
    assert done.stdout.startswith(b"no errors, no warnings; 428 frames in 0.32") and b"set aside: 1 frame of 29 bits" in done.stdout, done
    put("can.py", b"raise ImportError\n")
    done = subprocess.run([DEBIAN_PYTHON, COBTOOL, "conform", "--cobench", recorded(), SCRIPT, "run.blf"], stdout=subprocess.PIPE,
                          stderr=subprocess.PIPE, env={**os.environ, "PYTHONPATH": os.getcwd()})
    assert done.returncode == 2 and done.stderr.decode() == (
        "cobtool: run.blf: this is BLF of Vector, which python-can reads, and that isn't installed for this Python: "
        "`pip install python-can`, or save it as ASC\n"), done
