"""Foreign text in what is printed: names of data sheets, lines of scripts and logs, and names of files steer nothing."""
import csv
import html.parser
import io
import json
import os
import unicodedata
from xml.etree import ElementTree

from helper import is_refused, put, recorded, run

from cobench_tools import safe_text, tables

# An escape sequence, its C1 form, CR, an override of direction, and ends of lines that few know.
FOUL = ["\x1b[2J", "\x9b2J", "\r", "\x00", "\u202e", "\u2066", "\u200f", "\u2028", "\u2029", "\x85", "\x7f", "\udc9b", "\ufffe"]
SHEET = b"""[1017]
ParameterName=Heart\xc2\x9b2J\rEVIL
DataType=0x0006
AccessType=rw
DefaultValue=0
[1A00]
ParameterName=Map
ObjectType=8
DataType=7
CompactSubObj=2
[1800sub1]
ParameterName=COB-ID
DataType=7
DefaultValue=$NODEID+0x180
[1800sub2]
ParameterName=Type
DataType=5
DefaultValue=255
[1A00sub0]
ParameterName=Number
DataType=5
DefaultValue=1
[1A00sub1]
ParameterName=First
DataType=7
DefaultValue=0x20000008
[2000]
ParameterName=%s
DataType=5
AccessType=ro
PDOMapping=1
[DeviceInfo]
VendorName=M\xfcller \xe2\x80\xae"<b>&amp;|
"""


def network(name):
    """A script with a node whose first signal has this name."""
    put("sheet.eds", SHEET % name)
    return put("net.txt", b"eds drive <sheet.eds\nnode 5 pump drive\nparam 5 1017 0 99999\nparam 5 2000 0 5\n")


def printed(*words):
    """What a command prints of a script, as text that is UTF-8 and has only what can be seen, but for ends of lines by LF."""
    status, output, faults = run(*words)
    assert status in (0, 1), (words, status, faults)
    odd = [letter for letter in output.decode() + faults
           if unicodedata.category(letter) in ("Cc", "Cf", "Cs", "Zl", "Zp") and letter not in "\n\t"]
    assert not odd, (words, odd)
    return output.decode()


def test_no_form_of_text_has_what_steers():
    for foul in FOUL:
        text = f"good {foul}evil"
        for form in (safe_text.readable, safe_text.shortened, safe_text.markup, safe_text.markdown, safe_text.csv_cell,
                     safe_text.dbc_text, safe_text.lines):
            shown = form(text)
            assert "good " in shown and "evil" in shown and not set(shown) & set("\x1b\x9b\r\x00\u202e\u2066\u200f\u2028\u2029\x85\x7f")
            assert not any("\ud800" <= letter <= "\udfff" or letter == "\ufffe" for letter in shown), (form, foul)
    assert safe_text.lines("a\tb\nc\x1b\n") == "a\tb\nc?\n"
    assert safe_text.readable("5 °C, 10\u00a0m, Straße") == "5 °C, 10\u00a0m, Straße"
    assert safe_text.readable("K\udce4lte") == "Kälte"


def test_a_spreadsheet_finds_no_formula_and_still_its_numbers():
    for text in ("=1+1", "+1+1", "-1+1", "@SUM(A1)", "=HYPERLINK(\"http://evil/?\"&A1)", "-", "-5", "-1,234.5", "+3", "-12 us", "\uff1d1", "a=b"):
        is_text = text in ("-", "-5", "-1,234.5", "+3", "-12 us", "a=b")
        assert safe_text.csv_cell(text) == (text if is_text else f"'{text}"), text
    rows = list(csv.reader(io.StringIO(tables.csv_of(["one", "two"], [["\t=1", "a\rb"], [-7, "x\ny"]]))))
    assert rows == [["one", "two"], [" =1", "a?b"], ["-7", "x?y"]]


def test_each_output_of_a_network_has_a_foul_name_harmless():
    network(b"=1\r[31m|![x](http://evil/p.png)&lt;</script>\xe2\x80\xae")
    for form in ("text", "markdown", "csv", "html"):
        table = ["--table", "signals"] if form == "csv" else []
        text = printed("matrix", "--cobench", recorded(), "--format", form, *table, "net.txt")
        if form == "csv":
            row = list(csv.reader(io.StringIO(text)))[1]
            assert row[5] == "'=1?[31m|![x](http://evil/p.png)&lt;</script>?", row
        elif form == "markdown":
            assert r"=1?\[31m\|\!\[x\](http://evil/p.png)\&lt;\</script\>?" in text
        elif form == "html":
            assert "=1?[31m|![x](http://evil/p.png)&amp;lt;&lt;/script&gt;?" in text
    for words in (["check"], ["check", "--json"], ["load", "--allow", "unbounded"], ["load", "--allow", "unbounded", "--format", "svg"],
                  ["load", "--allow", "unbounded", "--json"], ["dbc"], ["matrix", "--format", "html"]):
        command, *rest = words
        text = printed(command, "--cobench", recorded(), *rest, "net.txt")
        if "--json" in words:
            assert "\\u009b" not in text and json.loads(text)
        if "svg" in words:
            ElementTree.fromstring(text)


class Cells(html.parser.HTMLParser):
    """The cells of a page."""

    def __init__(self, text):
        super().__init__()
        self.cells = []
        self.feed(text)

    def handle_data(self, data):
        self.cells.append(data)


def test_names_of_vendors_in_a_page_are_those_of_their_code_page():
    network(b"Speed")
    put("sheet.eds", (SHEET % b"Speed").replace(b"M\xfcller \xe2\x80\xae", b"M\xfcller "))
    cells = Cells(printed("matrix", "--cobench", recorded(), "--format", "html", "net.txt")).cells
    assert "Müller \"<b>&amp;|" in cells, cells


def test_a_row_of_a_table_stays_a_row():
    network(b"good\rEVIL")
    text = printed("matrix", "--cobench", recorded(), "--format", "csv", "--table", "signals", "net.txt")
    assert [row[5] for row in csv.reader(io.StringIO(text))] == ["Signal", "good?EVIL"]
    text = printed("matrix", "--cobench", recorded(), "--format", "markdown", "--table", "signals", "net.txt")
    assert [line for line in text.splitlines() if "good?EVIL" in line and line.startswith("| 185h") and line.endswith(" |")], text


def test_a_finding_has_no_control_of_a_data_sheet():
    network(b"Speed")
    text = printed("check", "--cobench", recorded(), "net.txt")
    assert "1017h:00 Heart?2J?EVIL" in text, text


def test_a_fault_shows_nothing_over_itself():
    put("x.dcf", b"[DeviceComissioning]\nNodeID=\rcobtool: all is well, no warnings, and no errors\n")
    is_refused(run("import", "x.dcf"), "x.dcf")
    assert "\r" not in run("import", "x.dcf")[2]
    is_refused(run("expand", "no\nsuch\x1b[2J"), "no?such?[2J: No such file")
    put("net.txt", b"node 5\x1b[31m x\nbitrate 500\nhorizon 1000000\n")
    put("replies.txt", b"refused 2 Syntax\nok\nok\n")
    status, output, _ = run("refusals", "net.txt", "replies.txt")
    assert status == 1 and output.startswith(b"net.txt:1: refused 2 Syntax: node 5?[31m x\n"), output
    put("trace.txt", b"0000000000 181 [1] 05\n\x1b[2J\x9b no line\n")
    for words in (["stats", "trace.txt"], ["candump", "trace.txt"]):
        is_refused(run(*words), "trace.txt:2: this is no line of a trace: ?[2J")
        assert "\x1b" not in run(*words)[2]
    put("one.log", b"(1.0) can0 181#05\n(2.0) \x1b[2J\xc2\x9b2J\n")
    is_refused(run("conform", "--cobench", recorded(), network(b"Speed"), "one.log"), "one.log:2: ", "(2.0) ?[2J?2J")


def test_names_of_files_are_read_and_steer_nothing():
    folder = os.fsdecode(b"n\xff\x1b[2J\nx")
    os.mkdir(folder)
    os.chdir(folder)
    network(b"Speed")
    os.chdir("..")
    path = os.path.join(folder, "net.txt")
    shown = "nÿ?[2J?x/net.txt"
    assert f"{shown}:3: error: " in printed("check", "--cobench", recorded(), path)
    whole = json.loads(printed("check", "--cobench", recorded(), "--json", "--junit", "report.xml", path))
    assert whole["script"] == shown and {finding["file"] for finding in whole["findings"]} == {shown}
    suite = ElementTree.parse("report.xml").getroot()[0]
    assert suite.get("name") == shown and {case.get("classname") for case in suite} == {shown}


def test_junit_keeps_what_is_no_xml():
    """Each letter of a refused line stands in the report as XML has it."""
    put("net.txt", b"node 5 <pump> & \"x\" ]]>\n")
    run("check", "--cobench", recorded(), "--junit", "report.xml", "net.txt")
    suite = ElementTree.parse("report.xml").getroot()[0]
    failures = suite.findall("testcase/failure")
    assert suite.get("failures") == "1" and suite.get("tests") == str(len(suite)) and len(failures) == 1
    assert "node 5 <pump> & \"x\" ]]>" in failures[0].text and "node 5 <pump> & \"x\" ]]>" in failures[0].get("message")
