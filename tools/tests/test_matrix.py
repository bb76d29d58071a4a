"""`matrix`: the tables of the examples, and of generated networks beside what their DCFs say to another reader."""
import csv
import html.parser
import io

import networks
from dcf_reader import Dcf, links
from helper import BINARY, answers, example, is_refused, put, recorded, run

# The messages of io_modules.txt, by hand: COB-IDs are 180h + the node, as TPDO 1 has them by the predefined connection set.
IO_MESSAGES = b"""\
COB-ID,Message,Sender,TPDO,Type,Sent,Inhibit [ms],Event [ms],SYNC start,Bytes,Receivers
181h,outputs,line,1,255,when changed,-,-,-,2,"infeed (RPDO 1), outfeed (RPDO 1)"
18Bh,infeed_inputs,infeed,1,255,when changed,5,-,-,1,line (RPDO 1)
18Ch,outfeed_inputs,outfeed,1,255,when changed,5,-,-,1,line (RPDO 2)
"""
IO_HEARTBEATS = b"""\
Node,Name,Each [ms],Watched by,Missed after [ms]
1,line,100,-,-
11,infeed,100,line,250
12,outfeed,100,line,250
127,manager,1000,-,-
"""
# One of the targets of servo_axes.txt goes to each axis; the drives' second TPDO is on by their data sheet.
SERVO_LINES = """\
181h    x_actual      x_axis  16-47  6064h:00  Position actual value [inc]      INTEGER32   motion       1  2201h:01
18Ah    controls      motion  16-31  2100h:02  Controlword of axis 2            UNSIGNED16  y_axis       1  6040h:00   Controlword
281h    (by default)  x_axis  16-23  6061h:00  Modes of operation display       INTEGER8    -            -  -          -
28Ah    targets       motion  32-63  2101h:02  Target position of axis [inc] 2  INTEGER32   y_axis       2  607Ah:00   Target position [inc]
   1  x_axis  2000h:06  Feed forward [0.1 %]                                     800 (320h)       100 (64h)
   1  x_axis  2001h:02  Offset of AI2 [mV]                                       -35              0
   2  y_axis         100  motion                    150
"""


def matrix(*words, given=None):
    return run("matrix", "--cobench", recorded(), *words, given or example("io_modules.txt"))


def test_matrix_has_the_tables_of_the_examples():
    for table, lines in (("messages", IO_MESSAGES), ("heartbeats", IO_HEARTBEATS)):
        assert matrix("--format", "csv", "--table", table) == (0, lines, "")
    status, output, faults = matrix(given=example("servo_axes.txt"))
    assert status == 1 and faults.count(": error: ") == faults.count("[refused]") == 3 and output.startswith(b"servo_axes.txt\n3 nodes; 4 messages; ")
    for line in SERVO_LINES.splitlines():
        assert line in output.decode(), line


def test_matrix_says_the_same_as_the_dcfs():
    for seed in (4, 13, 21):
        network = networks.Network(seed)
        put("network.txt", network.script())
        output = matrix("--format", "csv", "--table", "signals", given="network.txt")[1].decode()
        rows = {tuple(row.values()) for row in csv.DictReader(io.StringIO(output))}
        texts = answers(recorded(), network.script(), b"".join(b"dcf %d\n" % node for node in network.nodes))
        expected = links([Dcf(b"\n".join(lines).decode("latin-1")) for lines in texts])
        found = {tuple(row[place] for place in (0, 2, 3, 4, 7, 8, 9)) for row in rows}
        assert found == set(map(signal_cells, expected)) and len(found) > 5, seed


def signal_cells(link):
    """The cells of a link in the table of signals: COB-ID, sender, bits, entry, receiver, RPDO, its entry."""
    identifier, sender, _, start, bits, index, sub, receiver = link
    bits = f"{start}-{start + bits - 1}" if bits > 1 else str(start)
    taken = (receiver[0], str(receiver[1]), "%04Xh:%02X" % receiver[2:]) if receiver else ("-", "-", "-")
    return (f"{identifier:03X}h", sender, bits, f"{index:04X}h:{sub:02X}") + taken


def test_matrix_as_markdown():
    status, output, _ = matrix("--format", "markdown", "--table", "messages", "--title", "Line *7*")
    lines = output.decode().split("\n")
    assert status == 0 and lines[0] == r"# Line \*7\*" and lines[4] == "## Messages", lines[:6]
    assert lines[6].startswith("| COB-ID | Message |") and lines[7].startswith("| --- | --- | --- | ---: | ---: |")
    assert lines[8].startswith("| 181h | outputs | line | 1 | 255 | when changed | - |")


class Page(html.parser.HTMLParser):
    """The texts of a page's cells, how wide those of bits are, and its tags that were not closed."""

    def __init__(self, text):
        super().__init__()
        self.open, self.texts, self.bits = [], [], []
        self.feed(text)

    def handle_starttag(self, tag, attributes):
        if tag != "meta":
            self.open.append(tag)
        if tag == "td" and "colspan" in dict(attributes):
            self.bits.append(int(dict(attributes)["colspan"]))

    def handle_endtag(self, tag):
        assert self.open.pop() == tag, tag

    def handle_data(self, data):
        self.texts.append(data)


def test_matrix_as_a_page():
    status, output, _ = matrix("--format", "html", "--title", "</title>&")
    page = Page(output.decode())
    assert status == 0 and not page.open and page.texts.count("</title>&") == 2, page.texts[:9]
    assert b"http" not in output and b"src=" not in output and b"@media print" in output
    assert page.bits == [8, 8, 8, 8] and "1 Output image 1" in page.texts
    names = matrix("--format", "csv", "--table", "parameters")[1].decode().splitlines()[1].split(",")
    assert all(name in page.texts for name in names), names


def test_matrix_of_a_network_that_is_wrong_or_empty():
    put("empty.txt", b"bitrate 500\n")
    status, output, faults = matrix(given="empty.txt")
    assert status == 0 and output.count(b"\nnone\n") == 5 and b"0 nodes; 0 messages; 500 kbit/s" in output, output
    assert matrix("--format", "html", given="empty.txt")[0] == 0
    put("wrong.txt", b"eds d 4\n[2000]\nDataType=5\nPDOMapping=1\n[1017]\nnode 5 p d\nmessage m|1 5 1 1 0 0 0\nmessage m 5 1 1 0 0 0\n")
    status, output, faults = matrix(given="wrong.txt")
    assert status == 1 and "wrong.txt:7: error: message m|1" in faults and "[E05]" in faults
    assert b"Messages that are in no PDO, as they have errors\n" in output and b"m        p       E05\n" in output, output


def test_matrix_on_bad_input():
    put("binary", BINARY)
    put("cut.txt", b"eds x 3\n")
    put("utf16.txt", "node 5 p d\r\n".encode("utf-16"))
    for name, says in (("nosuch.txt", "No such file"), ("binary", "this is no text"), ("cut.txt", "0 of the 3 lines"),
                       ("utf16.txt", "UTF-16"), (".", "Is a directory")):
        is_refused(matrix(given=name), says)
    is_refused(matrix("--format", "pdf"), "invalid choice: 'pdf'")
    is_refused(run("matrix", "--cobench", "/nosuch", example("io_modules.txt")), "/nosuch: No such file")
