"""What `check` says of a script's slips: lines that replace others, messages with nobody at an end, late events, bit rates."""
from helper import put, recorded, run

SHEET = ["[DeviceInfo]", "BaudRate_500=1", "BaudRate_1000=0", "[1017]", "DataType=6", "[2000]", "DataType=5", "AccessType=rw",
         "PDOMapping=1", "[1400]", "ObjectType=9", "[1400sub1]", "DataType=7", "[1400sub2]", "DataType=5", "[1600]", "ObjectType=9",
         "[1600sub0]", "DataType=5", "[1600sub1]", "DataType=7", "[1800]", "ObjectType=9", "[1800sub1]", "DataType=7", "[1800sub2]",
         "DataType=5", "[1A00]", "ObjectType=9", "[1A00sub0]", "DataType=5", "[1A00sub1]", "DataType=7"]


def check(*lines, bitrate=500, given="net.txt", words=()):
    """The findings of a script of these lines behind a data sheet; the first of them is line 3."""
    put("io.eds", "\n".join(SHEET).encode())
    put("net.txt", "\n".join([f"bitrate {bitrate}", "eds io <io.eds", *lines]).encode())
    status, output, faults = run("check", "--cobench", recorded(), *words, given)
    assert not faults, faults
    return [status] + output.decode().splitlines()[:-1]


def test_a_line_that_replaces_another():
    pair = "message ins 3 1 255 0 0 0", "source ins 1 2000 0", "sink ins 1 4 2000 0"
    assert check("node 3 io_left io", "node 3 io_right io", "node 4 plc io", *pair, "param 3 1017 0 100", "param 3 1017 0 200",
                 "message ins 3 1 255 0 0 1A0", "event 1 1000 set 3 2000 0 1", "event 1 2000 set 3 2000 0 0", "param 3 1017 0 200") == [
        0,
        "net.txt:4: warning: node 3 io_right io: it replaces node 3 io_left io of line 3, and nothing is asked between [replaced]",
        "net.txt:10: warning: param 3 1017 0 200: it replaces param 3 1017 0 100 of line 9, and nothing is asked between [replaced]",
        "net.txt:11: warning: message ins 3 1 255 0 0 1A0: it replaces message ins 3 1 255 0 0 0 of line 6, and nothing is asked between "
        "[replaced]",
        "net.txt:13: warning: event 1 2000 set 3 2000 0 0: it replaces event 1 1000 set 3 2000 0 1 of line 12, and nothing is asked "
        "between [replaced]",
        "net.txt:14: warning: param 3 1017 0 200: it repeats line 10 [replaced]"]


def test_a_step_on_purpose_replaces_nothing():
    """A query stands between, or what was there is dropped first."""
    assert check("node 3 io_left io", "diag", "node 3 io_right io") == [0]
    assert check("node 3 io_left io", "param 3 1017 0 5", "drop-node 3", "node 3 io_right io", "param 3 1017 0 6", "unparam 3 1017 0",
                 "param 3 1017 0 7") == [0]
    assert check("node 3 io_left io", "event 1 1 set 3 2000 0 1", "drop-event 1", "event 1 2 set 3 2000 0 1") == [0]
    ends = "source m 1 2000 0", "sink m 1 4 2000 0"
    assert check("node 3 a io", "node 4 b io", "message m 3 1 255 0 0 0", *ends, "unsource m 1", "unsink m 1 4", *ends, "drop-message m",
                 "message m 3 1 255 0 0 0", *ends) == [0]
    assert check("node 3 io_left io", "node 3 io_right io", words=("--allow", "replaced node 3", "--werror")) == [0]
    assert check("node 3 io_left io", "node 3 io_right io", words=("--werror",))[0] == 1


def test_a_line_of_another_file_that_is_replaced():
    put("base.txt", b"node 3 io_left io\n")
    assert check("<base.txt", "node 3 io_right io") == [
        0, "net.txt:4: warning: node 3 io_right io: it replaces node 3 io_left io of base.txt:1, and nothing is asked between [replaced]"]


def test_messages_with_nobody_at_an_end():
    assert check("node 3 a io", "node 4 b io", "message empty 3 1 255 0 0 0", "message alone 4 1 255 0 0 0", "source alone 1 2000 0") == [
        0, "net.txt:5: warning: message empty: has no source: it carries nothing [no-source]",
        "net.txt:6: warning: message alone: has no sink: no node takes it [no-sink]"]


def test_an_event_behind_the_horizon():
    assert check("horizon 500000", "node 3 a io", "event 1 500000 set 3 2000 0 1", "event 2 600000 set 3 2000 0 2") == [
        0, "net.txt:6: warning: event 2: its time, 600.000 ms, is behind the horizon, 500.000 ms: it never happens [late-event]"]


def test_a_bit_rate_that_a_data_sheet_rules_out():
    assert check("node 3 a io", "node 4 b io", bitrate=1000) == [
        0, "io.eds:3: warning: data sheet io: has BaudRate_1000=0, and the network 1000 kbit/s: no bus for node 3 a, node 4 b [bit-rate]"]
    assert check("node 3 a io", bitrate=250) == [0], "the data sheet says nothing of it"
    assert check("diag", bitrate=1000) == [0], "no node is of it"


def test_what_follows_from_a_refused_line_is_its_note():
    lines = check("node 3 left", *(f"param 3 1017 0 {number}" for number in range(12)), "param 9 1017 0 1", "event 1 1 set 3 2000 0 1")
    assert lines[0] == 1 and sum(": error: " in line for line in lines[1:]) == 2, lines
    assert lines[1].startswith("net.txt:3: error: node 3 left: refused 2 Syntax") and lines[2] == (
        "net.txt:4: note: param 3 1017 0 0: refused 4 Unknown: node 3 was refused in line 3"), lines
    assert lines[10] == "net.txt:3: note: and 5 more refused likewise" and lines[11].startswith("net.txt:16: error: param 9 "), lines
    assert check("node 3 a nosuch", "param 3 1017 0 5", "event 1 1 power 3 off", words=("--allow", "refused node 3")) == [0]


def test_findings_stand_in_the_order_of_the_lines():
    put("base.txt", b"node 4 b io\nevent 2 600000 set 4 2000 0 2\n")
    lines = ("horizon 500000", "param 5 1017 0 1", "<base.txt", "event 1 600000 set 4 2000 0 2", "node 4 c io", "param 6 1017 0 1")
    places = [line.split(": ")[0] for line in check(*lines)[1:]]
    assert places == ["net.txt:4", "base.txt:2", "net.txt:6", "net.txt:7", "net.txt:8"], places
    places = [line.split(": ")[0] for line in check(*lines, words=("--sort", "code"))[1:]]
    assert places == ["net.txt:4", "net.txt:8", "net.txt:7", "base.txt:2", "net.txt:6"] or places == [
        "net.txt:4", "net.txt:8", "net.txt:7", "net.txt:6", "base.txt:2"], places
