"""`lsp`: what is shown round the text and can be done about it; that edits leave what a fresh server says."""
import os
import random
import re
from unittest import mock

from cobench_tools import tool
from cobench_tools.lsp.positions import rows_of
from helper import file, put
from lsp_scene import Editor, settle
from test_lsp import NAME, children_of, row_of, scene
from test_lsp_asked import hovered


def done(editor, row):
    """What can be done in a row: the new text of each by its title."""
    found = editor.of("codeAction", NAME, range={"start": {"line": row, "character": 0}, "end": {"line": row, "character": 0}},
                      context={"diagnostics": []})
    return {each["title"]: [(edit["range"]["start"]["character"], edit["range"]["end"]["character"], edit["newText"])
                            for edit in next(iter(each["edit"]["changes"].values()))] for each in found}


# What can be done.

def test_what_a_refusal_means_is_written_at_once():
    text = scene() + "param pump 1017 0 5\nparam 5 0x1017 0 5\nparm 5 1017 0 5\n"
    first = len(text.split("\n")) - 4
    with Editor() as editor:
        assert [each[:2] for each in editor.open(NAME, text)] == [(first, 6), (first + 1, 8), (first + 2, 0)]
        assert done(editor, first) == {"Write 5": [(6, 10, "5")]}
        assert done(editor, first + 1) == {"Write 1017": [(8, 14, "1017")]}
        assert done(editor, first + 2) == {"Write param": [(0, 4, "param")]}


def test_a_sink_without_a_source_is_wired_and_a_message_gets_its_least_inhibit_time():
    text = scene().replace("source flow 1 6041 0\n", "").replace("message flow 5 1 1 0 0 0", "message flow 5 1 255 0 0 0")
    row = row_of(text, "sink flow")
    with Editor() as editor:
        wrong = editor.open(NAME, text)
        assert [each[:5] for each in wrong if each[3] == 1] == [(row, 14, 20, 1, "E09")], wrong
        assert [each[:5] for each in wrong if each[3] == 2] == [(row_of(text, "message flow"), 8, 12, 2, "no-source")], wrong
        assert done(editor, row) == {"Wire it to 6041h:00 Statusword": [(0, 0, "source flow 1 6041 0\n")]}
        editor.change(NAME, (row, 0, row, 0, "source flow 1 6041 0\n"))
        titles = list(done(editor, row_of(text, "message flow")))
        assert len(titles) == 1 and titles[0].startswith("Send it at most each "), titles


# What is shown.

def test_names_stand_behind_objects_and_values_where_they_are_wanted():
    text = scene()
    row = row_of(text, "param 5 1017")
    whole = {"start": {"line": 0, "character": 0}, "end": {"line": 99, "character": 0}}
    with Editor() as editor:
        editor.open(NAME, text)
        found = editor.of("inlayHint", NAME, range=whole)
        assert [(each["position"]["line"], each["position"]["character"], each["label"]) for each in found][:2] == [
            (row, 14, "Producer heartbeat time"), (row + 1, 14, "Max motor speed")]
        editor.tell("workspace/didChangeConfiguration", {"settings": {"cobtool": {"values": True}}})
        labels = [each["label"] for each in editor.of("inlayHint", NAME, range=whole)]
        assert labels[:4] == ["Producer heartbeat time", "= 100 (64h)", "Max motor speed", "= 4000 (FA0h)"], labels


def test_words_have_colours_and_rows_can_be_folded():
    text = scene("# one\n# two\neds d 2\n[1000]\nDataType=7\n  node 5 \U0001F600 d\n")
    with Editor() as editor:
        editor.open(NAME, text)
        types = editor.about["capabilities"]["semanticTokensProvider"]["legend"]["tokenTypes"]
        data = editor.of("semanticTokens/full", NAME)["data"]
        rows = [data[place:place + 5] for place in range(0, len(data), 5)]
        assert [(*row[:3], types[row[3]]) for row in rows] == [
            (0, 0, 5, "comment"), (1, 0, 5, "comment"), (1, 0, 3, "keyword"), (0, 4, 1, "struct"), (0, 2, 1, "number"),
            (3, 2, 4, "keyword"), (0, 5, 1, "class"), (0, 2, 2, "class"), (0, 3, 1, "struct")], rows
        folds = {(each["startLine"], each["endLine"], each["kind"]) for each in editor.of("foldingRange", NAME)}
        assert folds == {(0, 1, "comment"), (2, 4, "region"), (1, 5, "region")}, folds


def test_rows_of_one_command_are_aligned_and_do_what_they_did():
    text = scene() + "param 5   2010 0  two  words \nparam 6 6080  0 4000\n# a comment   stays\nparam 6 1017 0 0x0A\n"
    rows = text.split("\n")
    with Editor() as editor:
        editor.open(NAME, text)
        edits = editor.of("formatting", NAME, options={"tabSize": 4, "insertSpaces": True})
        for edit in reversed(edits):
            row = edit["range"]["start"]["line"]
            rows[row] = edit["newText"]
        assert rows[-5:-1] == ["param 5 2010 0 two  words", "param 6 6080 0 4000", "# a comment   stays", "param 6 1017 0 0x0A"]
        assert [each for each in rows if each.startswith("s")] == ["source flow 1 6041 0", "sink flow 1 6 6040 0"]
        found = {edit["range"]["start"]["line"] for edit in edits}
        node = row_of(text, "node 5")
        assert rows[node:node + 2] == ["node 5 pump  drive", "node 6 guard drive"]
        assert found == {node, len(rows) - 5, len(rows) - 4}, "what is aligned stays"


# Whatever is edited, what is known is what a fresh server says.

WORDS = "5", "6", "node", "param", "9", "100", "6041", "\n", " ", "x", "\r\n", "drive", "flow", "# ", "\U0001F600"


def odd_change(dice, rows):
    """A change at random: a place, or a stretch of up to a row, and a text of a few words."""
    row = dice.randrange(len(rows))
    column = dice.randrange(len(rows[row]) + 1)
    last = min(row + dice.choice((0, 0, 0, 1)), len(rows) - 1)
    end = column + dice.randrange(4) if last == row else dice.randrange(3)
    text = "".join(dice.choice(WORDS) for _ in range(dice.randrange(3)))
    return row, column, last, end, text


def known(editor, rows):
    """All that a server says of the script."""
    return editor.found[NAME][1], editor.of("documentSymbol", NAME), [hovered(editor, row, 6) for row in range(0, len(rows), 3)]


def all_histories_of_edits_leave_what_a_fresh_server_says():
    """Needs a cobench that answers anything: it runs with the long lists."""
    from helper import real
    from cobench_tools.session import words_of
    program, dice = words_of(real()), random.Random(95)
    for _ in range(300):
        text = scene()
        with Editor(program) as editor:
            editor.open(NAME, text)
            for number in range(4):
                editor.change(NAME, odd_change(dice, rows_of(text)))
                editor.save(NAME)
                text = "".join(editor_rows(editor))
            settle(editor)
            with Editor(program) as fresh:
                fresh.open(NAME, text)
                settle(fresh)
                rows = rows_of(text)
                assert known(editor, rows) == known(fresh, rows), text


def editor_rows(editor):
    """The rows that the server has of the script."""
    return next(iter(editor.server.documents.opened.values())).rows


def test_edits_faster_than_answers_leave_what_a_fresh_server_says():
    text = scene()
    row = row_of(text, "param 5 1017")
    with Editor() as editor:
        editor.open(NAME, text)
        for column, letter in enumerate("99999"):
            editor.hurry(NAME, (row, 15 + column, row, 18 if not column else 15 + column, letter))
        wrong = editor.wait(NAME)
        assert [each[:5] for each in wrong] == [(row, 15, 20, 1, "E02")], wrong


# What may come.

def test_a_request_that_is_cancelled_says_so():
    text = scene()
    with Editor() as editor:
        editor.open(NAME, text)
        editor.tell("$/cancelRequest", {"id": 4711})
        editor._writer.write({"jsonrpc": "2.0", "id": 4711, "method": "textDocument/documentSymbol",
                              "params": {"textDocument": {"uri": "file://" + os.path.abspath(NAME)}}})
        assert editor.answer(4711)["error"]["code"] == -32800


def test_lines_that_end_by_cr_lf_and_letters_of_two_units_have_their_places():
    text = scene("eds drive <drive.eds\r\n# \U0001F600\r\nnode 5 pump drive\r\nparam 5 2010 0 \U0001F600 x\r\nparam 5 1017 0 99999\r\n")
    with Editor() as editor:
        wrong = editor.open(NAME, text)
        assert [each[:5] for each in wrong] == [(4, 15, 20, 1, "E02")], wrong
        wrong = editor.change(NAME, (3, 15, 3, 17, ""), (4, 6, 4, 7, "7"))
        assert [each[:5] for each in wrong] == [(4, 6, 7, 1, "refused")], wrong


def test_a_file_that_goes_and_comes_back_is_seen():
    text = scene()
    sheet = file("drive.eds")
    with Editor() as editor:
        editor.open(NAME, text)
        os.remove("drive.eds")
        editor.until(lambda: any(each[4] == "file" for each in editor.wrong(NAME)))
        put("drive.eds", sheet)
        editor.until(lambda: editor.wrong(NAME) == [])


def test_two_scripts_are_followed_at_once_and_one_that_is_closed_says_nothing_more():
    text = scene()
    row = row_of(text, "param 5 1017")
    with Editor() as editor:
        editor.open(NAME, text)
        bad = text.replace("param 5 1017 0 100", "param 5 1017 0 99999")
        assert [each[4] for each in editor.open("other.txt", bad)] == ["E02"]
        assert [each[4] for each in editor.change(NAME, (row, 15, row, 18, "99999"))] == ["E02"]
        editor.close("other.txt")
        editor.until(lambda: editor.wrong("other.txt") == [])
        assert [each[4] for each in editor.wrong(NAME)] == ["E02"]
        started = [child for child in children_of(os.getpid()) if b"open_stand_in" in file(f"/proc/{child}/cmdline")]
        assert len(started) <= 3, "one that stays open and one that waits, and one that may just end"


def test_a_file_beyond_all_measure_is_told_in_a_line():
    scene()
    with mock.patch.object(tool, "LONGEST", 1 << 20), Editor() as editor:
        wrong = editor.open("big.txt", "#" * (1 << 20) + "\n")
        assert len(wrong) == 1 and "it has over 1 MiB, and cobtool takes no more" in wrong[0][5], wrong
        assert editor.change("big.txt", (0, 0, 0, 1, "x")) == wrong and editor.change("big.txt", "# short\n") == []


def test_a_long_data_sheet_is_sent_whole_once_and_counts_as_it_is():
    text = scene()
    sheet = file("drive.eds") + b";\n" * 100
    put("drive.eds", sheet)
    row = row_of(text, "param 5 1017")
    with Editor() as editor:
        editor.open(NAME, text)
        programs, sent = next(iter(editor.server.scripts.values()))._kept.programs, []
        apart = programs.apart
        programs.apart = lambda commands: sent.append(commands) or apart(commands)
        wrong = editor.change(NAME, (row, 15, row, 18, "99999"))
        assert [each[:5] for each in wrong] == [(row, 15, 20, 1, "E02")], wrong
        assert re.fullmatch(rb"eds drive 1\n;[0-9a-f]{64}\n", sent[-1][0]), sent[-1][0]
        assert editor.said == [] and programs.made.items[b"eds", b"drive"] == b"eds drive 152\n" + sheet
        put("drive.eds", sheet.replace(b"HighLimit=6000", b"HighLimit=3000"))
        editor.until(lambda: len(editor.wrong(NAME)) == 2)
        assert editor.wrong(NAME)[1][4] == "E03" and sent[-1][0].startswith(b"eds drive 152\n")
