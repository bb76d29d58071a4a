"""`lsp`: what is wrong as one types, over sessions of the protocol with what stands in for cobench."""
import io
import os
import random
import re
import shutil
import signal
import subprocess
import sys

from cobench_tools.lsp import framing
from cobench_tools.lsp.documents import Document
from cobench_tools.lsp.positions import Lines, letters_to, position, rows_of
from helper import COBTOOL, Skipped, file, is_refused, kept_at, put, run
from lsp_scene import Editor, quiet, words

NAME = "network.txt"


def scene(text=None):
    """The script of these tests, its data sheet beside it in the folder of the test."""
    shutil.copy(os.path.join(kept_at("lsp"), "drive.eds"), "drive.eds")
    return text or file(kept_at("lsp"), NAME).decode()


def row_of(text, start):
    """The row that begins so."""
    return next(number for number, row in enumerate(text.split("\n")) if row.startswith(start))


# What is wrong, and where.

def test_a_value_that_is_none_is_told_at_its_word_and_goes_when_it_is_mended():
    text = scene()
    row = row_of(text, "param 5 1017")
    with Editor() as editor:
        assert editor.open(NAME, text) == []
        wrong = editor.change(NAME, (row, 15, row, 18, "99999"))
        assert [each[:5] for each in wrong] == [(row, 15, 20, 1, "E02")], wrong
        assert wrong[0][5].startswith('node 5 pump: 1017h:00 Producer heartbeat time: "99999" is no UNSIGNED16')
        assert editor.change(NAME, (row, 15, row, 20, "100")) == []


def test_a_limit_names_the_line_of_the_data_sheet():
    text = scene()
    row = row_of(text, "param 5 6080")
    with Editor() as editor:
        editor.open(NAME, text)
        wrong = editor.change(NAME, (row, 15, row, 19, "7000"))
        assert [each[:5] for each in wrong] == [(row, 15, 19, 1, "E03")], wrong
        assert "above the HighLimit 6000 (drive.eds:52)" in wrong[0][5]
        related = editor.found[NAME][1][0]["relatedInformation"]
        assert related[0]["location"]["uri"].endswith("/drive.eds") and related[0]["location"]["range"]["start"]["line"] == 51


def test_a_sink_of_another_width_names_its_source_and_its_message():
    text = scene()
    row = row_of(text, "sink flow")
    with Editor() as editor:
        editor.open(NAME, text)
        wrong = editor.change(NAME, (row, 14, row, 18, "6041"))
        assert [each[:5] for each in wrong] == [(row, 14, 20, 1, "E08")], wrong
        rows = [each["location"]["range"]["start"]["line"] for each in editor.found[NAME][1][0]["relatedInformation"]]
        assert rows == [row_of(text, "message flow"), row_of(text, "source flow")]


def test_a_refused_command_is_told_at_the_word_that_is_refused():
    text = scene()
    row = row_of(text, "param 5 6080")
    with Editor() as editor:
        editor.open(NAME, text)
        wrong = editor.change(NAME, (row, 6, row, 7, "9"))
        assert [each[:5] for each in wrong] == [(row, 6, 7, 1, "refused")] and "node 9 isn't there" in wrong[0][5], wrong


def test_half_a_row_is_no_error_until_it_is_left():
    text = scene()
    row = row_of(text, "param 5 6080")
    with Editor() as editor:
        editor.open(NAME, text)
        assert editor.change(NAME, (row, 14, row, 19, "")) == [], "the value is being typed"
        editor.save(NAME)
        editor.until(lambda: editor.wrong(NAME))
        assert [each[:5] for each in editor.wrong(NAME)] == [(row, 13, 14, 1, "refused")], editor.wrong(NAME)
        assert editor.change(NAME, (row, 14, row, 14, " 4000")) == []
        wrong = editor.change(NAME, (row, 14, row, 19, ""), (0, 0, 0, 0, " "))
        assert [each[0] for each in wrong] == [row], "another row is edited"


def test_a_file_that_is_not_there_leaves_the_rest_as_it_is():
    text = scene()
    row = row_of(text, "eds drive")
    with Editor() as editor:
        editor.open(NAME, text)
        assert editor.change(NAME, (row, 11, row, 20, "dri")) == [], "half a name"
        editor.save(NAME)
        editor.until(lambda: editor.wrong(NAME))
        wrong = editor.wrong(NAME)
        assert wrong[0][:5] == (row, 10, 14, 1, "file") and wrong[0][5] == "dri: No such file or directory", wrong
        assert all(code == "refused" for *_, code, _ in wrong[1:])


def test_a_data_sheet_that_is_open_counts_as_it_is_there():
    text = scene()
    sheet = file("drive.eds").decode()
    with Editor() as editor:
        editor.open(NAME, text)
        editor.open("drive.eds", sheet)
        row = row_of(sheet, "HighLimit")
        editor.change("drive.eds", (row, 10, row, 14, "3000"))
        editor.until(lambda: editor.wrong(NAME))
        assert [each[:5] for each in editor.wrong(NAME)] == [(row_of(text, "param 5 6080"), 15, 19, 1, "E03")]
        editor.close("drive.eds")
        editor.until(lambda: not editor.wrong(NAME))


def test_a_data_sheet_by_itself_is_judged_too():
    scene()
    sheet = file("drive.eds").decode() + "[2020]\nDataType=5\nDefaultValue=300\n"
    with Editor() as editor:
        wrong = editor.open("other.eds", sheet)
        errors = [each[:5] for each in wrong if each[3] == 1]
        assert errors == [(row_of(sheet, "DefaultValue=300"), 13, 16, 1, "E02")], wrong


def test_what_the_run_shows_is_told_at_its_node():
    text = scene() + "event 2 10 power 6 off\n"
    with Editor() as editor:
        wrong = editor.open(NAME, text)
        row = row_of(text, "node 6")
        assert [each[:5] for each in wrong] == [(row, 5, 12, 1, "unconfigured")], wrong


def test_what_a_later_row_replaces_is_told_unless_a_query_stands_between():
    text = scene() + "param 5 1017 0 50\n"
    with Editor() as editor:
        wrong = editor.open(NAME, text)
        assert [each[:5] for each in wrong] == [(len(text.split("\n")) - 2, 0, 17, 2, "replaced")], wrong
        last = len(text.split("\n")) - 2
        assert editor.change(NAME, (last, 0, last, 0, "diag\n")) == []


# Places.

def test_columns_are_units_of_utf_16_and_ends_of_rows_are_of_three_kinds():
    assert rows_of("a\r\nb\rc\n") == ["a\r\n", "b\r", "c\n", ""] and rows_of("") == [""] and rows_of("x") == ["x"]
    assert letters_to("a\U0001F600b", 3) == 2 and position("a\U0001F600b", 0, 2)["character"] == 3
    assert letters_to("a\U0001F600b", 2) == 1 and letters_to("ab\r\n", 9) == 2
    lines = Lines(rows_of("a\rb\nc\n"))
    assert [lines.row_of(number) for number in (1, 2, 3)] == [0, 2, 3] and [lines.number_of(row) for row in range(4)] == [1, 1, 2, 3]


def test_changes_make_the_text_that_they_say():
    document = Document("file:///x", 1, "one\r\ntwo\nthree")
    for change, text in (
            (((0, 3), (1, 0), ""), "onetwo\nthree"), (((1, 5), (1, 5), "\n"), "onetwo\nthree\n"),
            (((0, 1), (1, 2), "\r\n"), "o\r\nree\n"), (((9, 0), (9, 0), "end"), "o\r\nree\nend")):
        start, end, new = change
        document.change([{"range": {"start": place(start), "end": place(end)}, "text": new}], 2)
        assert document.text().decode() == text, (change, document.text())
        assert document.rows == rows_of(text)


def test_a_thousand_edits_make_the_text_that_a_plain_string_has():
    """The plain string is of UTF-16, in which a column is two bytes; ends of rows are found anew for each edit."""
    dice, text = random.Random(95), "one\r\ntwo \U0001F600 three\n\nfour"
    document = Document("file:///x", 1, text)
    for _ in range(1000):
        starts = [0] + [found.end() for found in re.finditer("\r\n|\r|\n", text)]
        rows = [re.split("[\r\n]", text[start:], maxsplit=1)[0] for start in starts]
        ends = sorted((dice.randrange(len(rows)), dice.randrange(12)) for _ in range(2))
        new = "".join(dice.choice("ab \r\n\U0001F600\u00e4") for _ in range(dice.randrange(4)))
        offsets = [starts[row] + letters(rows[row], column) for row, column in ends]
        if offsets[0] > offsets[1]:
            continue
        document.change([{"range": {"start": place(ends[0]), "end": place(ends[1])}, "text": new}], 2)
        text = text[:offsets[0]] + new + text[offsets[1]:]
        assert document.text().decode() == text and document.rows == rows_of(text), (ends, new)


def letters(row, column):
    """The letters of a row that end at a column of UTF-16 or before it."""
    data = row.encode("utf-16-le")[:2 * column]
    return len(data.decode("utf-16-le", "ignore"))


def place(pair):
    return {"line": pair[0], "character": pair[1]}


# The protocol.

def test_messages_are_read_whatever_stands_round_them():
    stream = b"Content-Type: x\r\nContent-Length: 2\r\n\r\n{}Content-Length: 1\r\n\r\n{content-length:  7\r\n\r\n{\"a\":1}Content-Length: 9\r\n\r\n{"
    assert list(framing.messages_of(io.BytesIO(stream))) == [{}, {"a": 1}]


def test_unknown_methods_and_wrong_words_are_refused_and_end_nothing():
    with Editor() as editor:
        assert editor.refused("textDocument/nonsense", {}) == "no method textDocument/nonsense"
        assert "KeyError" in editor.refused("textDocument/didOpen", {})
        editor.tell("textDocument/didChange", {"textDocument": {"uri": "file:///nowhere"}, "contentChanges": []})
        editor.tell("$/setTrace", {"value": "off"})
        assert editor.refused("x", None) == "no method x"


def test_the_command_ends_with_the_editor_and_leaves_no_process():
    text = scene()
    program = subprocess.Popen([sys.executable, COBTOOL, "lsp", "--stdio", "--cobench", " ".join(words())], stdin=subprocess.PIPE,
                               stdout=subprocess.PIPE, stderr=subprocess.PIPE)
    with Editor(source=program.stdout, target=program.stdin) as editor:
        assert editor.open(NAME, text) == []
        started = children_of(program.pid)
        assert started
    assert program.wait(20) == 0 and program.stderr.read() == b"" and not any(map(is_there, started))


def test_the_library_of_debian_reads_and_writes_the_same():
    python = "/usr/bin/python3"
    if not os.path.exists(python) or subprocess.run([python, "-c", "import pylsp_jsonrpc"], stderr=subprocess.DEVNULL).returncode:
        raise Skipped("python3-pylsp-jsonrpc isn't installed")
    text = scene()
    program = subprocess.Popen([python, COBTOOL, "lsp", "--cobench", " ".join(words())], stdin=subprocess.PIPE,
                               stdout=subprocess.PIPE, stderr=subprocess.PIPE)
    with Editor(source=program.stdout, target=program.stdin) as editor:
        assert editor.open(NAME, text) == []
        editor._writer._stream.write(b"Content-Length: 1\r\n\r\n{")
        assert "UNSIGNED16" in editor.at("hover", NAME, row_of(text, "param 5 1017"), 9)["contents"]["value"]
    assert program.wait(20) == 0 and program.stderr.read() == b""


def test_the_command_ends_where_the_editor_goes_away():
    text = scene()
    for end in (lambda program: program.stdin.close(), lambda program: program.send_signal(signal.SIGTERM)):
        program = subprocess.Popen([sys.executable, COBTOOL, "lsp", "--cobench", " ".join(words())], stdin=subprocess.PIPE,
                                   stdout=subprocess.PIPE, stderr=subprocess.PIPE)
        editor = Editor(source=program.stdout, target=program.stdin)
        editor.open(NAME, text)
        started = children_of(program.pid)
        end(program)
        assert program.wait(20) in (1, 130) and program.stderr.read() == b"" and started and not any(map(is_there, started))


def children_of(process):
    """The processes that a process has started."""
    return [int(number) for task in os.listdir(f"/proc/{process}/task")
            for number in file(f"/proc/{process}/task/{task}/children").split()]


def is_there(process):
    return os.path.exists(f"/proc/{process}")


def test_a_cobench_that_dies_is_started_again_and_says_so_once():
    text = scene()
    row = row_of(text, "param 5 1017")
    with Editor() as editor:
        editor.open(NAME, text)
        for child in children_of(os.getpid()):
            if b"open_stand_in" in file(f"/proc/{child}/cmdline"):
                os.kill(child, signal.SIGKILL)
        assert editor.change(NAME, (row, 15, row, 18, "99999"))[0][4] == "E02"
        quiet(editor)
        assert len(editor.said) == 1 and "was killed by signal 9; it is started again" in editor.said[0], editor.said


def test_a_program_that_is_no_cobench_is_refused():
    is_refused(run("lsp", "--cobench", "/nosuch"), "/nosuch: No such file or directory")
    is_refused(run("lsp", "--cobench", "echo hello"), "this is no reply: hello")
