"""`explain` and `candump`."""
import csv
import io
import re

from helper import EXAMPLES, example, file, is_fine, is_refused, kept, kept_at, put, run


def test_explain_has_the_words_of_the_project():
    explained = run("explain", example("servo_axes.txt"), example("servo_axes.replies.txt"))
    is_fine(explained, kept("servo_axes.explained.txt"))
    for line in (b"0000000166 601 x_axis 1000h:00 read\n", b"0000000277 581 x_axis 1000h:00 = 00020192h\n",
                 b"0000008491 note x_axis configured\n", b"0000070142 181 x_actual: 6041h=0637h 6064h=25000\n",
                 b"0000280197 702 y_axis boot-up\n"):
        assert line in explained[1], line


def test_explain_names_entries_also_in_pdos():
    explained = run("explain", "--names", example("servo_axes.txt"), example("servo_axes.replies.txt"))[1].decode()
    for line in ("0000000277 581 x_axis 1000h:00 Device type = 00020192h",
                 "0000070142 181 x_actual: 6041h Statusword=0637h 6064h Position actual value [inc]=25000"):
        assert line + "\n" in explained, line


def test_explain_gives_a_table():
    status, output, _ = run("explain", "--csv", example("servo_axes.txt"), example("servo_axes.replies.txt"))
    rows = list(csv.DictReader(io.StringIO(output.decode())))
    assert status == 0 and len(rows) == 433
    assert rows[1]["text"] == "x_axis 1000h:00 Device type read" and rows[1]["bytes"] == "40 00 10 00 00 00 00 00"
    assert {row["kind"] for row in rows} == {"NMT", "SYNC", "EMCY", "PDO", "SDO", "heartbeat", "note"}


def test_explain_gives_a_table_of_signals():
    status, output, _ = run("explain", "--signals", example("servo_axes.txt"), example("servo_axes.replies.txt"))
    rows = list(csv.DictReader(io.StringIO(output.decode())))
    at = [row for row in rows if row["time_us"] == "70142"]
    assert status == 0 and [list(row.values()) for row in at] == [
        ["70142", "181", "1", "x_axis", "x_actual", "6041h", "Statusword", "1591"],
        ["70142", "181", "1", "x_axis", "x_actual", "6064h", "Position actual value [inc]", "25000"]], at
    assert {row["message"] for row in rows} == {
        "controls", "targets", "x_actual", "y_actual", "x_axis TPDO 2", "y_axis TPDO 2"}


def test_names_in_latin_1_are_shown():
    sheet = b"[2000]\nParameterName=K\xe4lte\nDataType=6\nPDOMapping=1\n[1017]\nParameterName=H\xc3\xa4lfte\nDataType=6\n"
    put("net.txt", b"eds x 7\n" + sheet + b"node 5 p x\n")
    put("trace.txt", b"0000000055 605 [8] 2B 00 20 00 05 00 00 00\n0000000066 605 [8] 40 17 10 00 00 00 00 00\n")
    is_fine(run("explain", "--names", "net.txt", "trace.txt"),
            "0000000055 605 p 2000h:00 K\u00e4lte := 0005h\n0000000066 605 p 1017h:00 H\u00e4lfte read\n".encode())


def test_explain_takes_the_project_as_it_was_at_its_trace():
    replies = kept_at("two_traces.replies.txt")
    script = kept_at("two_traces.txt")
    is_fine(run("explain", "--trace", "1", script, replies), b"0000000055 77F manager boot-up\n")
    second = b"0000000055 77E manager boot-up\n0000020047 080 SYNC\n0000040047 080 SYNC\n"
    is_fine(run("explain", "--trace", "2", script, replies), second)
    is_refused(run("explain", "--trace", "3", script, replies), "it has 2 traces, and no trace 3")


def test_candump_gives_a_line_for_each_frame():
    status, log, faults = run("candump", given=file(EXAMPLES, "servo_axes.replies.txt"))
    lines = log.decode().splitlines()
    assert status == 0 and not faults and len(lines) == 428
    assert lines[0] == "(0000000001.000055) can0 701#00" and lines[1] == "(0000000001.000166) can0 601#4000100000000000"
    assert all(re.fullmatch(r"\(\d{10}\.\d{6}\) can0 [0-7][0-9A-F]{2}#([0-9A-F]{2}){0,8}", line) for line in lines)
    assert "(0000000001.260067) can0 08A#3081110000000000" in lines


def test_candump_starts_where_it_is_told():
    frame = b"0001000055 701 [1] 00\n"
    is_fine(run("candump", "--start", "1700000000", given=frame), b"(1700000001.000055) can0 701#00\n")
    is_fine(run("candump", "--start", "0", given=frame), b"(0000000001.000055) can0 701#00\n")
    is_refused(run("candump", "--start", "-1", given=frame), "--start is 0 to 9,999,999,999")
    is_refused(run("candump", "--start", "now", given=frame), "now")


def test_candump_warns_of_a_second_trace():
    replies = kept("two_traces.replies.txt")
    status, log, faults = run("candump", given=replies)
    assert status == 0 and log == b"(0000000001.000055) can0 77F#00\n" and "has 2 traces; this is the first" in faults
    status, log, faults = run("candump", "--trace", "2", given=replies)
    assert status == 0 and log.count(b"\n") == 3 and not faults


def test_cut_and_missing_traces_are_told():
    text = file(EXAMPLES, "servo_axes.replies.txt")
    frames = file(EXAMPLES, "io_modules.replies.txt").split(b"lines 209\n")[1]
    for tool in ("candump", "timeline"):
        is_refused(run(tool, "-", given=b""), "no trace")
        is_refused(run(tool, "-", given=b"ok\nlines 0\n"), "no trace")
        is_refused(run(tool, "-", given=text[:len(text) * 9 // 10]), "the replies are cut")
        is_refused(run(tool, "-", given=frames[:100]), "the last line is cut")
        is_refused(run(tool, "-", given=frames + b"0000000055 701 [2] 00\n"), "this is no line of a trace")
        is_refused(run(tool, "-", "--trace", "0", given=frames), "no trace 0")
