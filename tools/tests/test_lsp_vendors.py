"""`lsp`: scripts of version 3, with PDOs as vendors make them."""
from helper import kept
from lsp_scene import Editor, settle
from test_check import vendors
from test_lsp import row_of
from test_lsp_asked import hovered

NAME = "vendors.txt"


def script():
    return open(vendors()).read()


def opened(editor, text):
    """The diagnostics of the script once all was asked of it, its run too."""
    editor.open(NAME, text)
    settle(editor)
    return found(editor)


def changed(editor, *changes):
    """The same once it is changed."""
    editor.change(NAME, *changes)
    settle(editor)
    return found(editor)


def found(editor):
    return editor.wait(NAME)


def marked(text, found):
    """The codes of diagnostics, each with the words at which it stands."""
    rows = text.split("\n")
    return {(each[4], rows[each[0]][each[1]:each[2]]) for each in found}


def written(editor, row):
    """What can be written into a row, by titles."""
    found = editor.of("codeAction", NAME, range={"start": {"line": row, "character": 0}, "end": {"line": row, "character": 0}},
                      context={"diagnostics": []})
    return {each["title"]: [edit["newText"] for several in each["edit"]["changes"].values() for edit in several] for each in found}


def labels(editor, row, column):
    return [each["label"] for each in editor.at("completion", NAME, row, column)["items"]]


def test_what_is_wrong_stands_at_its_words():
    text = script()
    with Editor() as editor:
        found = marked(text, opened(editor, text))
        assert {("E12", "1F0"), ("E13", "0"), ("E26", "600"), ("E26", "2000"), ("E26", "255"), ("W28", "0 10"), ("W28", "2 10"),
                ("W23", "5 left"), ("W24", "7 spare"), ("E05", "1"), ("E10", "6"), ("E10", "5")} <= found, found
        assert {("refused", "9"), ("refused", "unreceive b_status 7"), ("refused", "2")} <= found, found
        assert written(editor, row_of(text, "message g_other")).get("Write 187") == ["187"]


def test_what_may_stand_in_a_receive():
    text = script() + "version \nreceive a_position \nreceive b_status 6 \nunreceive e_kept \nreceive b_status 6 0 \n"
    first = len(text.split("\n")) - 6
    with Editor() as editor:
        opened(editor, text)
        assert labels(editor, first, 8) == ["1", "2", "3"] and labels(editor, first + 1, 19) == ["6"], "its consumers"
        assert labels(editor, first + 2, 19) == ["0", "1", "2", "3", "4"] and labels(editor, first + 3, 17) == ["6"]
        details = [each["detail"] for each in editor.at("completion", NAME, first + 2, 19)["items"]]
        assert details == ["the plan gives one", "free", "takes b_status", "takes e_kept", "takes a_position"], details
        assert labels(editor, first + 4, 21) == ["0"]


def test_what_is_said_of_a_message_that_a_receive_names():
    text = script()
    row = row_of(text, "message b_status")
    with Editor() as editor:
        opened(editor, text)
        assert "taken by right (RPDO 2, within 10 ms)" in hovered(editor, row, 10, NAME), hovered(editor, row, 10, NAME)
        assert hovered(editor, row_of(text, "receive b_status"), 2, NAME).startswith("`receive MESSAGE ID RPDO MS`\n\n")
        symbols = {each["name"]: each for each in editor.of("documentSymbol", NAME)}
        assert [each["name"] for each in symbols["b_status"]["children"]] == ["source 1 6041", "sink 1 6", "receive 6 2", "receive 6 2",
                                                                              "receive 9 2"]
        changes = editor.at("rename", NAME, row_of(text, "node 6"), 5, newName="8")["changes"]
        rows = {each["range"]["start"]["line"] for several in changes.values() for each in several}
        assert row_of(text, "receive b_status 6 2 20") in rows and kept("check/vendors.txt").decode() == text


def test_a_save_becomes_edits():
    """What was typed reaches the cobench that stays open as edits, and back again."""
    text = script()
    row = row_of(text, "receive j_time")
    with Editor() as editor:
        first = opened(editor, text)
        assert ("E26", "2000") in marked(text, first)
        mended = text.replace("receive j_time 7 3 2000", "receive j_time 7 3 200")
        assert ("E26", "2000") not in marked(mended, changed(editor, (row, 19, row, 23, "200")))
        assert marked(text, changed(editor, text)) == marked(text, first)
        older = text.replace("version 3", "version 2").replace("receive ", "#")
        assert ("E05", "1") in marked(older, changed(editor, older))
