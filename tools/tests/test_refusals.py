"""`refusals`."""
import re

from helper import example, is_fine, is_refused, kept, put, run, session


def test_refusals_names_lines_and_slips():
    put("slips.txt", kept("slips.txt"))
    put("slips.replies.txt", kept("slips.replies.txt"))
    status, output, faults = run("refusals", "slips.txt", "slips.replies.txt")
    assert status == 1 and not faults and output == kept("slips.refused.txt"), output


def test_refusals_of_the_examples():
    for name in ("first_network", "io_modules"):
        is_fine(run("refusals", example(name + ".txt"), example(name + ".replies.txt")), b"")
    status, output, faults = run("refusals", example("servo_axes.txt"), example("servo_axes.replies.txt"))
    assert status == 1 and not faults and output.count(b": refused ") == 3, output
    assert b"servo_axes.txt:96: refused 6 InUse: drop-node 2\n" in output
    put("stdin", session(b"two servo drives and their"))
    again = run("refusals", "stdin", example("servo_axes.replies.txt"))
    assert again[0] == 1 and b"stdin:2110: refused 6 InUse: drop-node 2\n" in again[1], again


def test_refusals_counts_blocks_blanks_and_comments():
    put("net.txt", b"\n# one\neds x 2\n\nnode\n \t\nnode 5 p y\n# two\ndiag\n")
    put("expanded", b"ok\nrefused 4 Unknown\nlines 0\n")
    put("raw", b"refused 2 Syntax\nok\nrefused 4 Unknown\nrefused 2 Syntax\nlines 0\n")
    status, output, _ = run("refusals", "net.txt", "expanded")
    assert status == 1 and output.startswith(b"net.txt:7: refused 4 Unknown: node 5 p y\n"), output
    output = run("refusals", "net.txt", "raw")[1]
    assert re.findall(rb"net.txt:(\d)", output) == [b"2", b"7", b"8"], output


def test_refusals_tells_what_has_no_reply():
    put("net.txt", b"bitrate 500\nhorizon 5\ndiag\ntrace\n")
    for replies, why in ((b"ok\nok\nli", b"replies.txt:3: the last line is cut"), (b"ok\n" * 2, b"the replies end"),
                         (b"ok\nok\nlines 2\nE01 event 1\n", b"replies.txt:3: 1 of 2 lines are there"),
                         (b"ok\nok\ncobench: 1 Memory\n", b"the session ended with 1 Memory")):
        put("replies.txt", replies)
        status, output, _ = run("refusals", "net.txt", "replies.txt")
        assert status == 1 and b"net.txt:3: no reply: diag\n" in output and why in output, output
    put("replies.txt", b"ok\nok\nlines 0\nlines 2\nx\n")
    assert b"net.txt:4: no reply: trace\n" in run("refusals", "net.txt", "replies.txt")[1]


def test_refusals_refuses_other_sessions():
    put("net.txt", b"bitrate 500\nhorizon 5\n")
    put("replies.txt", b"ok\nok\nok\n")
    is_refused(run("refusals", "net.txt", "replies.txt"), "2 commands, and there are 3 replies")
    put("replies.txt", b"ok\nlines 0\n")
    is_refused(run("refusals", "net.txt", "replies.txt"), "line 2 of the replies")
    is_refused(run("refusals", "net.txt", "net.txt"), "net.txt:1: this is no reply")


def hints(script, replies):
    """The hints of `refusals` on these commands, with the lines of the commands."""
    put("net.txt", script)
    put("replies.txt", replies)
    output = run("refusals", "net.txt", "replies.txt")[1].decode()
    return re.findall(r"(?m)^net.txt:(\d+): refused .*\n    (.*)", output)


def test_a_hint_knows_what_was_dropped_and_made_again():
    script = b"eds d 0\nnode 5 pump d\nnode 5 pump servo\nnode 5 fan d\ndrop-node 5\nunparam 5 2000 0\n"
    script += b"message m 5 1 0 0 0 0\ndrop-event 07\nevent 7 0 nmt 1 0\ndrop-event 7\ndrop-event 7\n"
    replies = b"ok\nok\nrefused 4 Unknown\nok\nok\nrefused 4 Unknown\nrefused 4 Unknown\nrefused 4 Unknown\nok\nok\n"
    assert hints(script, replies + b"refused 4 Unknown\n") == [
        ("3", "eds servo isn't there; there are: d"), ("6", "node 5 was dropped in line 5"),
        ("7", "node 5 was dropped in line 5"), ("8", "event 07 isn't there; there are: none"),
        ("11", "event 7 was dropped in line 10")]


def test_hints_on_likely_slips():
    script = b"eds servo servo_drive.eds\nhelp\nexit\n<base.txt\ntrace now\ndiag a b\nbitrate\n"
    put("base.txt", b"")
    assert [hint for _, hint in hints(script, b"refused 2 Syntax\n" * 7)] == [
        "LINES is a number; a file is taken in by `eds servo <servo_drive.eds` and `cobtool expand`",
        "no such command; `cobench --help` lists them",
        "no such command; the end of the input ends a session (Ctrl-D where it is typed)",
        "cobench reads no files: give it the script through `cobtool expand`, which takes the script in",
        "1 word behind trace, where it has none: trace", "2 words behind diag, where it has none: diag",
        "no words behind bitrate, where it has 1: bitrate RATE"]


def test_a_name_where_a_number_belongs_has_the_number():
    script = b"eds d 0\nnode 5 pump d\nparam pump 1017 0 100\nsink m 1 pump 2000 0\nevent 1 5 nmt 1 pump\n"
    script += b"param fan 1017 0 100\n"
    assert [hint for _, hint in hints(script, b"ok\nok\n" + b"refused 2 Syntax\n" * 4)] == [
        "ID is a number: pump is node 5", "ID is a number: pump is node 5", "ID is a number: pump is node 5",
        "ID is a decimal number of at most 10 digits, not fan"]


def test_a_unit_behind_a_number_has_it_in_the_unit_of_its_place():
    script = b"horizon 200ms\nhorizon 1.5\nevent 1 1.25s power 5 on\nmanager 127 10ms 0 500\nmanager 127 0 0 0.5s\n"
    script += b"message m 5 1 255 5ms 0 0\nmessage m 5 1 255 0 1.5ms 0\nevent 1 5 nmt start 5\nevent 1 5 nmt begin 5\n"
    assert [hint for _, hint in hints(script, b"refused 2 Syntax\n" * 9)] == [
        "US is in microseconds: 200000", "US is in whole microseconds, not 1.5", "TIME is in microseconds: 1250000",
        "SYNC_US is in microseconds: 10000", "TIMEOUT_MS is in milliseconds: 500",
        "INHIBIT is in multiples of 100 microseconds: 50", "EVENT is in whole milliseconds, not 1.5ms",
        "an NMT command is a number: start is 1", "CMD is a decimal number of at most 10 digits, not begin"]


def test_a_file_that_is_not_there_may_be_another():
    put("IO16.eds", b"[1017]\nDataType=6\n")
    for file, hint in (('"IO16.eds"', "a file's name has no quotation marks: <IO16.eds"),
                       (".\\IO16.eds", "folders are told apart by /: <./IO16.eds"),
                       ("io16.EDS", "there is IO16.eds, and upper and lower case differ")):
        put("net.txt", f"eds d <{file}\n".encode())
        is_refused(run("expand", "net.txt"), "net.txt:1: ", "No such file", hint)
    put("net.txt", b"<io16.eds\n")
    is_refused(run("expand", "net.txt"), "there is IO16.eds")
    put("net.txt", b"eds d <nosuch.eds\n")
    assert run("expand", "net.txt")[2] == "cobtool: net.txt:1: nosuch.eds: No such file or directory\n"
    put("net.txt", b'eds d "IO16.eds"\n')
    put("replies.txt", b"refused 2 Syntax\n")
    assert b"`eds d <IO16.eds`" in run("refusals", "net.txt", "replies.txt")[1]


def test_refusals_names_the_script_that_is_taken_in():
    put("base.txt", b"# base\nnode 5 pump drive\n")
    put("net.txt", b"<base.txt\nparam 5 1017 0 100\n")
    put("replies.txt", b"refused 4 Unknown\n" * 2)
    output = run("refusals", "net.txt", "replies.txt")[1].decode()
    assert "base.txt:2: refused 4 Unknown: node 5 pump drive\n" in output, output
    assert "net.txt:2: refused 4 Unknown: param 5 1017 0 100\n    node 5 was refused in base.txt:2\n" in output, output


def test_one_file_alone_can_be_the_standard_input():
    for tool in ("refusals", "explain"):
        is_refused(run(tool, "-", "-", given=b"diag\n"), "the standard input can be one file alone")
