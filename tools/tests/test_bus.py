"""`bus scan`, `read` and `write`: over a bus of python-can with simulated devices, and what is refused before a frame is sent."""
import contextlib
import os
import pty
import re
import struct
import subprocess
import sys
import time

import bus_clock
import bus_device
import bus_running
from bus_scene import Output, Rack, here, on_bus, python_can
from helper import COBTOOL, Skipped, is_refused, put, recorded

from cobench_tools.bus import connection, frame_log, progress, value

QUICK, SHORT = ("--timeout", "3000"), ("--timeout", "300")
UNHEARD = "--listen", "0", *QUICK

# Data types by index: each is an entry that can be read and written; then what can't.
KINDS = {0x2001: 0x05, 0x2002: 0x06, 0x2003: 0x07, 0x2004: 0x1B, 0x2005: 0x09, 0x2006: 0x0F, 0x2007: 0x08, 0x2008: 0x03}
LINES = [f"[{index:04X}]\nParameterName=Entry {index:04X}\nDataType=0x{kind:04X}\nAccessType=rw\n" for index, kind in KINDS.items()]
SHEET = "".join([*LINES, "LowLimit=-10\nHighLimit=0xA\n",
                 "[2009]\nParameterName=Serial number\nDataType=7\nAccessType=ro\nDefaultValue=5\n",
                 "[200A]\nParameterName=Command\nDataType=5\nAccessType=wo\n",
                 "[1000]\nDataType=7\nAccessType=ro\nDefaultValue=0x00020192\n[1018sub1]\nDataType=7\nAccessType=ro\nDefaultValue=0x29C\n"
                 "[1018sub2]\nDataType=7\nAccessType=ro\nDefaultValue=7\n[1017]\nDataType=6\nAccessType=rw\n"]).encode()


def device(number=5, **more):
    return bus_device.Device(number, SHEET.split(b"\n"), **more)


def written(made, index, text, *words):
    """The status, output and faults of writing an entry of a device by its data sheet, and the requests that it got."""
    put("a.eds", SHEET)
    status, output, faults, rack = on_bus([made], "write", "--eds", "a.eds", "--yes", *UNHEARD, *words, made.number, f"{index:X}", 0, text)
    return status, output, faults, rack.requests(made.number)


def read(made, index, *words):
    put("a.eds", SHEET)
    status, output, faults, rack = on_bus([made], "read", "--eds", "a.eds", *QUICK, *words, made.number, f"{index:X}", 0)
    return status, output, faults, rack.requests(made.number)


def frames(*texts):
    return [bytes.fromhex(text) for text in texts]


def test_values_of_up_to_four_bytes_go_in_one_frame():
    made = device()
    assert written(made, 0x2001, "0x2A") == (0, "node 5: 2001h:00 Entry 2001 := 42 (2Ah)\n", "", frames("2F0120002A000000"))
    assert written(made, 0x2002, "300")[3] == frames("2B0220002C010000")
    assert written(made, 0x2003, "$NODEID+0x180")[3] == frames("2303200085010000")
    assert written(made, 0x2008, "-3")[3] == frames("2B082000FDFF0000") and made.entries[0x2008, 0].data == b"\xFD\xFF"
    assert written(made, 0x2007, "2.5")[3] == frames("2307200000002040") and made.entries[0x2007, 0].data == struct.pack("<f", 2.5)
    assert read(made, 0x2007) == (0, "node 5: 2007h:00 Entry 2007 = 2.5 REAL32\n", "", frames("4007200000000000"))
    assert read(made, 0x2008)[:2] == (0, "node 5: 2008h:00 Entry 2008 = -3 INTEGER16\n")
    assert read(made, 0x2001)[:2] == (0, "node 5: 2001h:00 Entry 2001 = 42 (2Ah) UNSIGNED8\n")


def test_longer_values_go_in_segments():
    """Nine letters are seven bytes and two, of which the second segment has five bytes unused and is the last: 1Bh."""
    made = device()
    assert written(made, 0x2005, "ABCDEFGHI") == (0, "node 5: 2005h:00 Entry 2005 := ABCDEFGHI\n", "", frames(
        "2105200009000000", "0041424344454647", "1B48490000000000"))
    assert read(made, 0x2005) == (0, "node 5: 2005h:00 Entry 2005 = ABCDEFGHI VISIBLE_STRING\n", "", frames(
        "4005200000000000", "6000000000000000", "7000000000000000"))
    assert written(made, 0x2005, "")[3] == frames("2105200000000000", "0F00000000000000") and made.entries[0x2005, 0].data == b""
    assert read(made, 0x2005)[1] == "node 5: 2005h:00 Entry 2005 = no byte VISIBLE_STRING\n"
    assert written(made, 0x2004, "0x0102030405060708")[3] == frames("2104200008000000", "0008070605040302", "1D01000000000000")


def test_blocks_are_asked_for_where_the_device_does_them():
    """Of 80 bytes the device takes five segments a block; one that is lost is sent again. Without blocks it goes in segments."""
    text = bytes(range(80)).hex().upper()
    for lost in (None, 1, 3, 5):
        made = device()
        made.lose_segment = lost if lost != 5 else None
        status, output, faults, requests = written(made, 0x2006, text, "--block")
        assert (status, faults) == (0, "") and made.entries[0x2006, 0].data.hex().upper() == text, (lost, faults)
        assert requests[0].hex() == "c606200050000000" and requests[1][0] == 1 and requests[-1][0] == 0xD1, requests
        made.lose_segment = lost
        status, output, faults, requests = read(made, 0x2006, "--block")
        assert status == 0 and output == f"node 5: 2006h:00 Entry 2006 = {bytes(range(80)).hex(' ').upper()} DOMAIN\n", (lost, faults)
        assert [request[0] for request in requests] == [0xA4, 0xA3] + [0xA2] * (1 if lost is None else 2) + [0xA1], (lost, requests)
    made = device(does_blocks=False)
    assert written(made, 0x2006, text, "--block")[0] == 0 and made.entries[0x2006, 0].data.hex().upper() == text
    assert read(made, 0x2006, "--block")[1].startswith("node 5: 2006h:00 Entry 2006 = 00 01 02 ")


@contextlib.contextmanager
def on_a_terminal():
    """The standard error is one, and progress is shown at once."""
    kept = progress.FIRST, progress.EACH
    progress.FIRST = progress.EACH = 0
    Output.isatty = lambda self: True
    try:
        yield
    finally:
        progress.FIRST, progress.EACH = kept
        del Output.isatty


def test_how_much_of_a_long_value_is_there_is_shown_on_a_terminal():
    """Of 40 bytes there are seven in a segment; the device takes five segments in a block, and gives all in one."""
    text, made = "00" * 40, device()
    with on_a_terminal():
        assert shown(written(made, 0x2006, text)) == [f"{place} of 40 bytes" for place in (7, 14, 21, 28, 35, 40)]
        assert shown(read(made, 0x2006)) == [f"{place} bytes" for place in (7, 14, 21, 28, 35, 40)]
        assert shown(written(made, 0x2006, text, "--block")) == ["35 of 40 bytes", "40 of 40 bytes"]
        assert shown(read(made, 0x2006, "--block")) == ["42 bytes"], "how much of the last segment counts is told behind it"
        assert written(made, 0x2001, "1")[2] == ""


def shown(done):
    """What stood in the line on how much is done, one after the other; at the end nothing stands there."""
    status, _, faults, _ = done
    *lines, last = re.findall(r"\r(.*?)\x1b\[K", faults)
    assert (status, last) == (0, "") and faults.endswith("\r\x1b[K"), faults
    return lines


def test_what_a_device_refuses_or_does_wrong_is_told():
    """Each fault, at the first request or at that of the last segment, has its line and status 1."""
    abort = "node 5: 2005h:00 Entry 2005: "
    cases = [(1, bus_device.aborted(0x06090011), "abort 06090011 no such sub-index"), (1, bus_device.lost_request, "no answer in 300 ms"),
             (3, bus_device.lost_answer, "no answer in 300 ms"), (1, bus_device.reset, "its boot-up message came in the middle"),
             (2, bus_device.segment_of_nothing, "abort 05040001 command not valid by this program: its segment has no byte, and isn't "
              "the last one"),
             (2, bus_device.wrong_toggle, "abort 05030000 toggle bit not alternated by this program: its segment has the wrong toggle bit"),
             (2, bus_device.twice, "an answer came that nothing asked for")]
    for number, fault, says in cases:
        made = device(own={(0x2005, 0): b"ABCDEFGHI"})
        made.faults[number] = fault
        status, output, faults, requests = read(made, 0x2005, *SHORT)
        expected = f"cobtool: {abort}{says}\n"
        if fault is bus_device.twice:       # the second answer to the first segment is one with the wrong toggle
            assert status == 1 and "toggle bit" in faults, faults
        else:
            assert (status, output, faults) == (1, "", expected), faults
    assert read(device(), 0x200A)[2] == "cobtool: node 5: 200Ah:00 Command: abort 06010001 write only\n"
    assert written(device(), 0x2009, "1", "--force") == (
        1, "", "warning: node 5: 2009h:00 Serial number: its access is ro\ncobtool: node 5: 2009h:00 Serial number := 1: abort 06010002 read only\n",
        frames("2309200001000000"))


def test_what_the_data_sheet_does_not_allow_is_refused_before_a_frame_is_sent():
    cases = [(0x2008, "11", "11 is above its high limit, 10; --force sends it all the same"), (0x2008, "-11", "-11 is below its low limit, -10"),
             (0x2008, "TRUE", "TRUE is no INTEGER16, which is -32768 to 32767"), (0x2009, "1", "its access is ro"),
             (0x2001, "256", "256 is no UNSIGNED8, which is 0 to 255"), (0x2006, "0", "0 is no DOMAIN, which is written in pairs"),
             (0x2FFF, "1", "the data sheet a.eds has no type of it that is known here; --type TYPE does")]
    for index, text, says in cases:
        status, output, faults, requests = written(device(), index, text)
        assert (status, output, requests) == (2, "", []) and says in faults and len(faults.splitlines()) == 1, faults
    made = device()
    assert written(made, 0x2008, "11", "--force")[0] == 1 and made.requests == 1
    status, _, faults, rack = on_bus([made], "write", "--yes", *UNHEARD, 5, 2001, 0, 1)
    assert status == 2 and not rack.frames and "2001h:00: no data sheet says its type; --type TYPE does" in faults
    assert on_bus([made], "write", "--yes", "--type", "unsigned8", *UNHEARD, 5, 2001, 0, 7)[0] == 0 and made.entries[0x2001, 0].data == b"\7"
    for words, says in (((0, 2000, 0), "a node has a number from 1 to 127"), ((5, "20000", 0), "INDEX is a hexadecimal number up to FFFF"),
                        ((5, 2000, "100"), "SUB is a hexadecimal number up to FF"), ((5, "-1", 0), "")):
        status, _, faults, rack = on_bus([made], "read", *words)
        assert status == 2 and says in faults and not rack.frames, faults


def test_nothing_is_written_without_a_yes():
    """Without a terminal it is refused; at one the question says what is written, and anything but yes sends nothing."""
    put("a.eds", SHEET)
    made = device()
    status, output, faults, rack = on_bus([made], "write", "--eds", "a.eds", *UNHEARD, 5, 2001, 0, 1)
    assert (status, output, rack.frames) == (2, "", []) and "--yes sends it without asking" in faults
    for answer, status in (("n", 2), ("", 2), ("y", 0), ("YES", 0)):
        made, (master, slave) = device(), pty.openpty()
        os.write(master, answer.encode() + b"\n")
        kept, sys.stdin = sys.stdin, os.fdopen(slave)
        try:
            done = on_bus([made], "write", "--eds", "a.eds", *UNHEARD, 5, 2001, 0, 1)
        finally:
            sys.stdin.close()
            sys.stdin = kept
            os.close(master)
        assert done[0] == status and made.requests == (status == 0), (answer, done)
        assert done[2].startswith("write node 5: 2001h:00 Entry 2001 := 1? [y/N] "), done


SCRIPT = b"bitrate 250\nmanager 127 0 200 500\neds a <a.eds\neds b <b.eds\nnode 5 pump a\nnode 6 fan b\nnode 7 valve a\n"
OTHER = b"[1000]\nDataType=7\nAccessType=ro\nDefaultValue=0x00030191\n[1018sub1]\nDataType=7\nAccessType=ro\nDefaultValue=0x11\n"


def network():
    put("a.eds", SHEET)
    put("b.eds", OTHER)
    return put("network.txt", SCRIPT)


def test_a_node_that_is_not_planned_is_not_written_to():
    words = "--script", network(), "--cobench", recorded(), "--yes", *UNHEARD
    status, output, faults, rack = on_bus([device(9)], "write", *words, 9, 2001, 0, 1)
    assert (status, output, rack.frames) == (2, "", []) and faults == "cobtool: network.txt has no node 9\n", faults
    status, output, faults, rack = on_bus([device(9)], "write", *words, "--force", "--type", "UNSIGNED8", 9, 2001, 0, 1)
    assert status == 0 and faults == "warning: network.txt has no node 9\n" and len(rack.frames) == 1, faults
    status, output, faults, rack = on_bus([device()], "write", *words, 5, 2001, 0, 1)
    assert (status, output) == (0, "node 5 pump: 2001h:00 Entry 2001 := 1\n"), faults


def test_another_master_is_told_before_the_first_write():
    words = "--script", network(), "--cobench", recorded(), "--listen", "300", *QUICK, 5, 2001, 0, 1
    for frame, says in ((0x77F, "it sends the heartbeat of the manager, node 127 (77Fh)"), (0x606, "it sends SDO requests to node 6 (606h)"),
                        (0x000, "it sends NMT commands (000h)"), (0x7E5, "it sends LSS commands (7E5h)")):
        also = [(frame, b"\1\6" if frame == 0 else b"\5" if frame == 0x77F else b"\x40" + bytes(7))]
        status, output, faults, rack = on_bus([device()], "write", *words, also=also)
        assert status == 2 and not rack.requests(5), faults
        assert faults.startswith(f"warning: another master is on the bus: {says}") and len(faults.splitlines()) == 2, faults


def test_scan_says_who_is_there_and_who_is_not():
    """The planned pump, a stranger that fits its data sheet, a fan with the pump's identity; the valve isn't there."""
    pump, fan, stranger = device(5), device(6), device(12)
    pump.entries[0x1017, 0].data = b"\x14\0"
    status, output, faults, rack = on_bus([pump, fan, stranger], "scan", network(), "--cobench", recorded(), "--listen", "300", *SHORT)
    lines = [line.split(None, 8) for line in output.splitlines()]
    assert status == 1 and not faults, faults
    assert output.splitlines()[1].split("  ")[-1] == "pump" and "pre-operational  00020192     0000029C  00000007" in output, output
    assert lines[2][-1].endswith("fan; device type 00020192h, and the data sheet has 00030191h; vendor 0000029Ch, and the data sheet has "
                                 "00000011h; it fits data sheet a of node 5 pump, node 7 valve"), output
    assert lines[3][-1].endswith("not planned; it fits data sheet a of node 5 pump, node 7 valve"), output
    assert output.splitlines()[4:] == ["node 7 valve: not on the bus"], output
    assert {data[0] for identifier, data in rack.frames} == {0x40} and {identifier & 0x780 for identifier, _ in rack.frames} == {0x600}


def test_a_manager_that_answers_is_no_stranger():
    nodes = [device(5), bus_device.Device(6, OTHER.split(b"\n")), device(7), device(127)]
    status, output, faults, _ = on_bus(nodes, "scan", network(), "--cobench", recorded(), "--listen", "0", *SHORT)
    assert status == 0 and output.splitlines()[-1].endswith("  the manager"), output


def test_scan_knows_the_node_that_is_the_manager():
    """It is compared as the others are; its heartbeat shows another master, and its state."""
    script = put(network(), b"version 3\n" + SCRIPT.replace(b"manager 127 ", b"manager 5 "))
    pump, other = device(5), device(5)
    other.entries[0x1018, 1].data = b"\1\0\0\0"
    pump.entries[0x1017, 0].data = b"\x14\0"
    output = on_bus([pump], "scan", script, "--cobench", recorded(), "--listen", "300", *SHORT)[1]
    assert output.splitlines()[1].endswith("  pump, the manager") and "5     pre-operational  " in output, output
    assert "another master is on the bus: it sends the heartbeat of the manager, node 5 (705h)" in output, output
    output = on_bus([other], "scan", script, "--cobench", recorded(), "--listen", "0", *SHORT)[1]
    assert "  pump, the manager; vendor 00000001h, and the data sheet has 0000029Ch" in output, output


def test_scan_tells_two_devices_of_one_number():
    made = device()
    made.faults["all"] = bus_device.twice
    status, output, faults, _ = on_bus([made], "scan", "--listen", "0", *SHORT)
    assert status == 1 and "2 devices have this number; " in output, output
    status, output, faults, _ = on_bus([device()], "scan", "--listen", "0", *SHORT)
    assert status == 0 and output.splitlines()[1].startswith("5     not heard  00020192     0000029C  00000007"), output
    assert on_bus([], "scan", "--listen", "0", *SHORT)[:2] == (0, "nothing answers\n")


def test_the_log_has_each_frame_as_candump_writes_it():
    put("a.eds", SHEET)
    status, _, faults, _ = on_bus([device()], "read", "--log", "bus.log", *QUICK, 5, 2009, 0)
    lines = open("bus.log").read().splitlines()
    assert status == 0 and [line.split()[2] for line in lines] == ["605#4009200000000000", "585#4309200005000000"], lines
    assert all(line[0] == "(" and line[11] == "." and line[18:20] == ") " for line in lines), lines
    assert sorted(lines) == lines
    is_refused(on_bus_refused("--log", "no/bus.log"), "no/bus.log: No such file or directory")


def test_the_log_has_what_was_sent_when_it_was_on_the_bus():
    """At 250 kbit/s three frames of eight bytes wait before the request: each takes 111 bits, 444 us."""
    put("a.eds", SHEET)
    made = bus_running.Running(5, SHEET.split(b"\n"))
    bus = bus_clock.ClockedBus([made], 250)
    bus.put(made, [(identifier, bytes(8)) for identifier in (0x081, 0x082, 0x083)])
    with bus_clock.used(bus):
        status, _, faults = here("bus", "read", "--log", "bus.log", "--interface", "virtual", 5, 2009, 0)
    found = [(line.split()[2][:3], int(line[12:18])) for line in open("bus.log")]
    assert status == 0 and found == [("081", 444), ("082", 888), ("083", 1332), ("605", 1776), ("585", 2220)], (faults, found)


def test_a_log_replaces_no_other_file():
    put("a.eds", SHEET)
    words = "read", "--eds", "a.eds", *QUICK, 5, 2009, 0
    done = on_bus([device()], *words, "--log", "a.eds")
    assert (done[0], done[1]) == (2, "") and done[2] == "cobtool: a.eds is there, and is no log: it isn't replaced\n", done
    assert open("a.eds", "rb").read() == SHEET and not done[3].frames
    for content in (b"", b"(1.000000) can0 705#05\n"):
        put("bus.log", content)
        assert on_bus([device()], *words, "--log", "bus.log")[0] == 0 and len(open("bus.log").readlines()) == 2


def test_error_frames_without_end_hold_up_nothing():
    """An adapter that is alone on its bus gives them faster than they are taken."""
    can = python_can()
    bus = type("Bus", (), {"recv": lambda self, seconds: can.Message(timestamp=time.time(), is_error_frame=True)})()
    assert connection.Connection(can, bus).receive(time.monotonic() + 0.01) is None


def test_the_last_frame_is_waited_for():
    """A command is on the bus before the adapter is closed, though the bus is full; the log has it."""
    made = bus_running.Running(5, SHEET.split(b"\n"))
    bus = bus_clock.ClockedBus([made], 250)
    bus.put(made, [(0x081, bytes(8))])
    with bus_clock.used(bus):
        words = "--yes", "--force", "--listen", "0", "--log", "bus.log", "--interface", "virtual"
        status, _, faults = here("bus", "nmt", *words, "stop", 5)
    assert status == 0 and made.state == bus_device.STOPPED and [line.split()[2] for line in open("bus.log")][-1] == "000#0205", faults


def on_bus_refused(*words):
    status, output, faults, rack = on_bus([], "read", *words, 5, 2009, 0)
    assert not rack.frames
    return status, output.encode(), faults


def test_other_frames_are_logged_and_set_aside():
    can = python_can()
    for text, words in (("00000181#01", {"is_extended_id": True, "data": b"\1"}), ("181#R", {"is_remote_frame": True}),
                        ("20000080#", {"is_error_frame": True, "is_extended_id": True, "arbitration_id": 0x80}), ("181##001", {"is_fd": True, "data": b"\1"})):
        message = can.Message(**{"arbitration_id": 0x181, "is_extended_id": False, **words})
        assert frame_log.text_of(message) == text, frame_log.text_of(message)


def test_what_python_can_cannot_open_is_one_line():
    python_can()
    os.environ.pop("CAN_INTERFACE", None)
    os.environ["HOME"] = os.getcwd()
    for words, says in (((), "no adapter is named: by --interface and --channel"), (("--interface", "nosuch"), "python-can has no interface nosuch; "),
                        (("--interface", "virtual", "--bitrate", "250"), "--bitrate is in bits a second, as 250000, not 250"),
                        (("--interface", "socketcan", "--channel", "nosuch7"), "socketcan nosuch7: "),
                        (("--interface", "pcan", "--channel", "PCAN_USBBUS1"), "pcan PCAN_USBBUS1: ")):
        done = here("bus", "read", *words, 5, 2009, 0)
        is_refused((done[0], done[1].encode(), done[2]), says)


def test_the_script_says_the_bit_rate():
    can, options = python_can(), type("Options", (), {"interface": "virtual", "channel": "x", "bitrate": None, "force": False})()
    assert connection.configured(can, options, 250_000)["bitrate"] == 250_000
    options.bitrate = 500_000
    done = on_bus([device()], "read", "--script", network(), "--cobench", recorded(), "--bitrate", "500000", 5, 2001, 0)
    assert done[0] == 2 and "the script has 250,000 bits a second, and the adapter is to have 500,000" in done[2] and not done[3].frames


def test_without_python_can_one_line_says_what_to_install():
    """-S takes the folders with packages away."""
    done = subprocess.run([sys.executable, "-S", "-E", COBTOOL, "bus", "read", "5", "1000", "0"], stdout=subprocess.PIPE, stderr=subprocess.PIPE)
    is_refused((done.returncode, done.stdout, done.stderr.decode()), "apt-get install python3-can")


def test_a_device_in_another_process_is_read_over_udp():
    """The bus of python-can between processes; where the computer has no multicast, this is skipped."""
    can = python_can()
    try:
        rack = Rack([device()], "239.74.163.9", "udp_multicast")
    except (OSError, ImportError, can.CanError) as why:
        raise Skipped(f"udp_multicast can't be opened: {why}") from None
    rack.start()
    words = f"import sys; sys.path[:] = {sys.path!r}; from cobench_tools.main import main; sys.exit(main())"
    try:
        done = subprocess.run([sys.executable, "-c", words, "bus", "read", "--interface", "udp_multicast", "--channel", "239.74.163.9",
                               "--type", "UNSIGNED32", "5", "2009", "0"], stdout=subprocess.PIPE, stderr=subprocess.PIPE)
    finally:
        rack.close()
    assert (done.returncode, done.stdout, done.stderr) == (0, b"node 5: 2009h:00 = 5 UNSIGNED32\n", b""), done


def test_real_numbers_are_the_shortest_that_have_their_bytes():
    """0.1 of 32 bits is 3DCCCCCDh; the next number needs nine digits."""
    assert value.text_of(0x08, bytes.fromhex("CDCCCC3D")) == "0.1" and value.text_of(0x08, bytes.fromhex("CECCCC3D")) == "0.10000001"
    assert value.text_of(0x11, struct.pack("<d", 0.1)) == "0.1" and value.text_of(0x08, b"\0") == "00"
    assert value.data_of(0x08, "1e99", 1) is None and value.data_of(0x08, "x", 1) is None
