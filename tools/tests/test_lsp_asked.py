"""`lsp`: what the editor asks about a place: what stands there, what may stand there, where else it stands."""
import os
import re

from cobench_tools.lsp import codes, command_words
from cobench_tools.lsp.outline import Row
from cobench_tools.forms import FORMS
from helper import ROOT, file
from lsp_scene import Editor
from test_lsp import NAME, row_of, scene


def hovered(editor, row, column, name=NAME):
    """What is said of a place."""
    found = editor.at("hover", name, row, column)
    return found["contents"]["value"] if found else None


# Hover. The values are those of the data sheet tests/lsp/drive.eds and of what `cobtool matrix` prints of the script.

def test_an_object_is_said_with_its_type_its_limits_and_its_value_at_the_node():
    text = scene()
    row = row_of(text, "param 5 6080")
    with Editor() as editor:
        editor.open(NAME, text)
        said = hovered(editor, row, 9).replace("  \n", "\n").split("\n")
        assert said == ["**6080h:00 Max motor speed**", "", "UNSIGNED32, rw", "limits: at most 6000", "PDO: can't be mapped",
                        "at node 5 pump once it is configured: 4000 (FA0h)"], said
        said = hovered(editor, row_of(text, "source flow"), 14)
        assert "PDO: sent" in said and "sent in `flow` at 1" in said, said
        assert "taken from `flow` at 1" in hovered(editor, row_of(text, "sink flow"), 15)


def test_a_message_is_said_with_its_identifier_and_what_its_bits_are():
    text = scene()
    with Editor() as editor:
        editor.open(NAME, text)
        said = hovered(editor, row_of(text, "source flow"), 8)
        assert "node 5 pump, TPDO 1, COB-ID 185h" in said and "| 0 to 15 | 6041h:00 Statusword | guard 6040h:00 |" in said, said
        assert "comes at each SYNC (10 ms)" in said and "2 bytes, at most 0.75 % of the bus" in said, said


def test_a_node_is_said_with_its_state_and_when_it_was_configured():
    text = scene()
    with Editor() as editor:
        editor.open(NAME, text)
        editor.until(lambda: True)
        said = hovered(editor, row_of(text, "node 5"), 6)
        assert said.startswith("**node 5 pump**") and "operational at the end of the run, 60.000 ms; configured at" in said, said
        assert hovered(editor, row_of(text, "sink flow"), 13)[:11] == "**node 6 gu"


def test_commands_identifiers_and_codes_are_said():
    text = scene()
    row = row_of(text, "message flow")
    with Editor() as editor:
        editor.open(NAME, text)
        assert hovered(editor, row, 3).startswith("`message NAME ID TPDO TYPE INHIBIT EVENT COB`\n\nnode ID sends a message")
        assert hovered(editor, row, 24).startswith("0: the plan gives the COB-ID"), hovered(editor, row, 24)
        editor.change(NAME, (row, 23, row, 24, "085"))
        said = hovered(editor, row, 25)
        assert "belongs to SYNC or EMCY" in said and "**E12** Another message or another service has this identifier" in said, said
        assert hovered(editor, 0, 3) is None


def test_a_data_sheet_says_which_object_a_row_is_of():
    text = scene()
    sheet = file("drive.eds").decode()
    with Editor() as editor:
        editor.open(NAME, text)
        editor.open("drive.eds", sheet)
        said = hovered(editor, row_of(sheet, "HighLimit"), 2, "drive.eds")
        assert "6080h:00 Max motor speed" in said and "at node 5 pump once it is configured: 4000" in said, said


def test_meanings_are_those_of_the_pages():
    page = file(ROOT, "docs", "rules", "diagnostics.md").decode()
    part = page[page.index("## On a machine"):]
    rows = [[cell.strip().replace("`", "") for cell in line.strip("|").split("|")] for line in part.splitlines()
            if re.match(r"\| [EW][0-9]", line)]
    assert len(rows) == len(codes.MEANINGS)
    for code, *words in rows:
        assert codes.meaning_of(code[:3], "default" in code) == tuple(words[:2]), code
    page = file(ROOT, "docs", "rules", "commands.md").decode()
    assert command_words.MEANINGS.keys() == FORMS.keys()
    for name, words in command_words.MEANINGS.items():
        assert words.split(";")[0].split(".")[0].split("  ")[0][:30] in page.replace("`", ""), name


def test_words_of_a_row_are_known_by_its_form():
    assert Row("event 1 40000 set 5 6041 0 two words").kinds == ["COMMAND", "K", "TIME", "set", "ID", "INDEX", "SUB", "TEXT", "TEXT"]
    assert Row("eds drive <drive.eds # x\n").kinds[:3] == ["COMMAND", "NAME", "FILE"] and Row("\n").kinds == []
    assert Row("node 5 pump drive more").kinds[-1] == "MORE" and Row("nonsense x").kinds == ["COMMAND", "MORE"]
    assert Row("event 1 2 nmt 1 5").named(5) == ("node", "5") and Row("manager 5 0 0 1").named(1) is None


# Completion.

def labels(editor, row, column):
    """What may stand at a place."""
    return [each["label"] for each in editor.at("completion", NAME, row, column)["items"]]


def test_what_may_stand_there_goes_by_the_words_before():
    text = scene() + "source flow \nsink flow 1 6 \nparam 5 \nparam 5 6080 0 \nmessage x 5 \nnode \nwhat\n"
    with Editor() as editor:
        editor.open(NAME, text)
        first = len(text.split("\n")) - 8
        assert labels(editor, first, 12) == ["2", "1"], "the next position is free, the first has a source"
        assert labels(editor, first + 1, 14) == ["6040"], "the one entry of 16 bits that a PDO can write"
        assert labels(editor, first + 2, 8) == ["1017", "2010", "6040", "6080"], "what can be written, but PDO objects"
        assert labels(editor, first + 3, 15) == ["6000"], "the high limit"
        assert labels(editor, first + 4, 12) == ["1"] and labels(editor, first + 5, 5) == ["1", "5", "6"]
        assert "param" in labels(editor, first + 6, 0) and labels(editor, 0, 3) == []
        made = editor.at("completion", NAME, first + 2, 8)["items"][0]
        assert made["detail"] == "Producer heartbeat time · UNSIGNED16, rw" and made["textEdit"]["newText"] == "1017", made
        assert made["textEdit"]["range"]["start"] == {"line": first + 2, "character": 8}
        assert labels(editor, row_of(text, "eds"), 11) == ["<drive.eds"] and labels(editor, row_of(text, "node 5"), 12) == ["drive"]


# Names.

def places(found):
    """Files, rows and columns of some places."""
    return sorted((os.path.basename(each["uri"]), each["range"]["start"]["line"], each["range"]["start"]["character"],
                   each["range"]["end"]["character"]) for each in found)


def with_parts():
    """The script in two files: the messages in one that it takes in."""
    text = scene()
    start = text.index("message flow")
    part, text = text[start:], text[:start] + "<parts.txt\n"
    with open("parts.txt", "w") as made:
        made.write(part)
    return text, part


def test_names_are_found_where_they_are_made_and_used_over_includes():
    text, part = with_parts()
    node = row_of(text, "node 5")
    with Editor() as editor:
        assert editor.open(NAME, text) == []
        found = places(editor.at("references", NAME, node, 5, context={"includeDeclaration": True}))
        assert found == [(NAME, node, 5, 6), (NAME, row_of(text, "param 5 1017"), 6, 7), (NAME, row_of(text, "param 5 6080"), 6, 7),
                         ("parts.txt", 0, 13, 14), ("parts.txt", row_of(part, "event"), 18, 19)], found
        assert len(editor.at("references", NAME, node, 5, context={"includeDeclaration": False})) == 4
        editor.open("parts.txt", part)
        assert places(editor.at("definition", "parts.txt", 0, 13)) == [(NAME, node, 5, 6)]
        assert places(editor.at("definition", "parts.txt", 1, 8)) == [("parts.txt", 0, 8, 12)]
        assert places(editor.at("definition", "parts.txt", 1, 15)) == [("drive.eds", row_of(file("drive.eds").decode(), "[6041]"), 0, 6)]
        assert places(editor.at("definition", NAME, row_of(text, "<parts"), 3)) == [("parts.txt", 0, 0, 0)]
        marks = editor.at("documentHighlight", "parts.txt", 0, 9)
        assert [each["range"]["start"]["line"] for each in marks] == [0, 1, 2]


def test_another_name_goes_into_all_files_or_is_refused():
    text, part = with_parts()
    node = row_of(text, "node 5")
    with Editor() as editor:
        editor.open(NAME, text)
        changes = editor.at("rename", NAME, node, 5, newName="9")["changes"]
        assert {os.path.basename(uri): len(each) for uri, each in changes.items()} == {NAME: 3, "parts.txt": 2}
        changes = editor.at("rename", NAME, node, 8, newName="motor")["changes"]
        assert [len(each) for each in changes.values()] == [1]
        for column, name, why in ((5, "6", "node 6 is there already"), (5, "127", "127 is the manager's number"),
                                  (5, "x", "the number of a node is 1 to 127, not x"), (8, "a b", "a name has 1 to 32 of")):
            place = {"textDocument": {"uri": "file://" + os.path.abspath(NAME)}, "position": {"line": node, "character": column}}
            assert why in editor.refused("textDocument/rename", {**place, "newName": name}), name


def test_a_node_may_have_the_manager_s_number_in_version_3():
    text = "version 3\n" + scene() + "node \n"
    node = row_of(text, "node 5")
    with Editor() as editor:
        editor.open(NAME, text)
        assert labels(editor, len(text.split("\n")) - 2, 5) == ["1", "127", "5", "6"]
        changes = editor.at("rename", NAME, node, 5, newName="127")["changes"]
        assert [len(each) for each in changes.values()] == [5], changes


def test_the_controller_is_said_and_what_is_wrong_with_it_stands_at_its_words():
    """The manager runs in the guard, whose 1017h is 70 ms by a parameter, and whose power an event would switch."""
    text = "version 3\n" + scene().replace("manager 127 10000 0", "manager 6 10000 50") + "param 6 1017 0 70\nevent 2 9000 power 6 off\n"
    with Editor() as editor:
        wrong = sorted(each[:5] for each in editor.open(NAME, text))
        assert wrong == [(row_of(text, "param 6 1017"), 15, 17, 2, "W27"), (row_of(text, "event 2"), 13, 24, 2, "W25")], wrong
        editor.until(lambda: True)
        said = hovered(editor, row_of(text, "node 6"), 6)
        assert "data sheet drive, manager" in said and "operational at the end of the run, 60.000 ms; nobody boots it" in said, said
        said = hovered(editor, row_of(text, "event 2"), 15)
        assert "**W25** The event does nothing: the manager runs in the controller" in said, said


def test_symbols_are_the_parts_of_the_script():
    text = scene()
    with Editor() as editor:
        editor.open(NAME, text)
        found = editor.of("documentSymbol", NAME)
        assert [each["name"] for each in found] == ["drive", "5 pump", "6 guard", "flow", "event 1"]
        assert [each["name"] for each in found[1]["children"]] == ["param 1017 0", "param 6080 0"]
        assert [each["name"] for each in found[3]["children"]] == ["source 1 6041", "sink 1 6"]
        assert [each["name"] for each in editor.ask("workspace/symbol", {"query": "PUM"})] == ["5 pump"]
        editor.open("drive.eds", file("drive.eds").decode())
        assert [(each["name"], each["detail"]) for each in editor.of("documentSymbol", "drive.eds")][:2] == [
            ("1000", "Device type"), ("1017", "Producer heartbeat time")]
