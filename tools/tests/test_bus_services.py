"""`bus nmt`, `save`, `restore`, `lss` and `upload`: what is sent, what is refused before, and what a device holds."""
import bus_device
from bus_scene import on_bus
from helper import put, recorded, run as cobtool
from test_bus_download import SHEET, devices, script

QUICK = "--listen", "0", "--timeout", "3000"
STORING = """[1010]
ObjectType=8
SubNumber=2
[1010sub1]
ParameterName=Save all
DataType=7
AccessType=rw
[1011sub1]
DataType=7
AccessType=rw
"""


def run(action, made, *words, also=()):
    """What an action does on a bus: status, output, faults, and the rack."""
    return on_bus(made, action, *QUICK, *words, also=also)


# The network management.

def test_a_command_is_two_bytes():
    """Start 01, stop 02, pre-operational 80, reset node 81, reset communication 82; 0 stands for all."""
    cases = [("stop", 5, b"\2\5", "stop to node 5"), ("pre-operational", "all", b"\x80\0", "pre-operational to all nodes"),
             ("reset-node", 5, b"\x81\5", "reset-node to node 5\nnode 5: it has booted"),
             ("reset-communication", "all", b"\x82\0", "reset-communication to all nodes")]
    for service, node, data, says in cases:
        status, output, faults, rack = run("nmt", devices(), "--yes", service, node)
        if service == "reset-communication":
            assert output.startswith(f"sent: {says}\n"), output
        else:
            assert (status, output, faults) == (0, f"sent: {says}\n", ""), (output, faults)
        assert rack.frames == [(0, data)], rack.frames
    for words, says in ((("stop", 0), "a node has a number from 1 to 127, not 0"), (("stop", "x"), "NODE is a number from 1 to 127, or all, not x"),
                        (("go", 5), "go")):
        status, output, faults, rack = run("nmt", devices(), "--yes", *words)
        assert (status, output, rack.frames) == (2, "", []) and says in faults, faults
    status, output, faults, rack = run("nmt", devices(), "stop", 5)
    assert (status, rack.frames) == (2, []) and "--yes sends it without asking" in faults


def test_a_node_that_is_not_configured_is_not_started():
    """Neither where nothing says whether it is, nor where it holds other values; after a download it is."""
    path, made = script(), devices()
    words = "--cobench", recorded(), "--yes"
    status, output, faults, rack = run("nmt", made, "--yes", "start", 5)
    assert (status, rack.frames) == (2, []) and "whether node 5 is configured isn't known without --script SCRIPT; --force" in faults, faults
    for node in (5, "all"):
        status, output, faults, rack = run("nmt", made, *words, "--script", path, "start", node)
        assert status == 1 and not output and not rack.commands(), output
        assert "net.txt:8: error: node 5 pump: 2001h:00 Speed: 300 (12Ch) is planned, and the device has 0 [differs]" in faults, faults
        assert faults.endswith(f"{'node 5 pump' if node == 5 else 'all nodes'}: not started: what net.txt plans isn't there; --force starts it all the same\n")
    assert on_bus(made, "download", *QUICK, *words, "--no-start", path)[0] == 0
    for node, data in ((5, b"\1\5"), ("all", b"\1\0")):
        status, output, faults, rack = run("nmt", made, *words, "--script", path, "start", node)
        assert (status, faults) == (0, "") and rack.commands() == [data], faults
    status, output, faults, rack = run("nmt", made, *words, "--listen", "300", "--script", path, "start", "all", also=[(0x70C, b"\x7F")])
    assert status == 1 and not rack.commands() and "node 12 is on the bus, and isn't planned: it would be started too" in faults
    status, output, faults, rack = run("nmt", devices(), *words, "--force", "--script", path, "start", 5)
    assert status == 0 and rack.commands() == [b"\1\5"] and "warning: net.txt:8: error: " in faults, faults


def test_a_node_that_is_not_planned_is_not_commanded():
    words = "--cobench", recorded(), "--yes", "--script", script()
    status, output, faults, rack = run("nmt", devices(), *words, "stop", 9)
    assert (status, rack.frames) == (2, []) and "net.txt has no node 9; --force sends it all the same" in faults
    assert run("nmt", devices(), *words, "--force", "stop", 9)[3].frames == [(0, b"\2\x09")]


# Storing and restoring.

def test_save_and_restore_write_their_signatures():
    """73h 61h 76h 65h is `save`, 6Ch 6Fh 61h 64h is `load`."""
    made = bus_device.Device(5, STORING.encode().split(b"\n"))
    status, output, faults, rack = run("save", [made], "--yes", 5)
    assert (status, output, faults) == (0, "node 5: store the parameters: done\n", "")
    assert [data.hex() for data in rack.requests(5)] == ["2310100173617665"] and made.kept == [(0x1010, 1)]
    status, output, faults, rack = run("restore", [made], "--yes", 5)
    assert status == 0 and output == "node 5: restore the defaults: done; they count from the next reset on\n"
    assert [data.hex() for data in rack.requests(5)] == ["231110016c6f6164"]
    status, output, faults, rack = run("save", [made], "--yes", "--sub", "3", 5)
    assert status == 1 and faults == "cobtool: node 5: store the parameters: 1010h:03: abort 06090011 no such sub-index\n", faults
    status, output, faults, rack = run("save", [made], 5)
    assert (status, rack.frames) == (2, []) and "--yes sends it without asking" in faults
    status, output, faults, rack = run("restore", [made], "--yes", "--cobench", recorded(), "--script", script(), 9)
    assert (status, rack.frames) == (2, []) and "net.txt has no node 9" in faults


# LSS.

def slave(serial, number=255):
    made = devices()[0]
    made.lss = bus_device.LssSlave((0x29C, 7, 0x10002, serial), number)
    return made


SHORT = "--listen", "0", "--timeout", "300"


def test_the_only_device_gets_a_number_and_a_bit_rate():
    made = slave(4711)
    status, output, faults, rack = on_bus([made], "lss", *SHORT, "--yes", "--set-node", 6, "--set-bitrate", 250, "--store")
    assert (status, faults) == (0, ""), faults
    assert output == ("vendor 0000029Ch, product 00000007h, revision 00010002h, serial number 00001267h; it has no number\n"
                      "done: give it the number 6, give it 250 kbit/s, have it store this\n"), output
    assert (made.lss.number, made.lss.rate, made.lss.is_stored, made.lss.is_open) == (6, 250, True, False)
    sent = [data.hex() for identifier, data in rack.frames]
    assert {identifier for identifier, _ in rack.frames} == {0x7E5} and sent[0] == "0401000000000000" and sent[-1] == "0400000000000000"
    assert sent[-4:-1] == ["1106000000000000", "1300030000000000", "1700000000000000"], sent


def test_a_device_is_chosen_by_its_identity():
    one, two = slave(1, 9), slave(2)
    status, output, faults, rack = on_bus([one, two], "lss", *SHORT, "--yes", "--identity", "0x29C", "7", "0x10002", "2", "--set-node", 6)
    assert (status, one.lss.number, two.lss.number) == (0, 9, 6), (output, faults)
    assert [data.hex() for _, data in rack.frames][:4] == ["409c020000000000", "4107000000000000", "4202000100000000", "4302000000000000"]
    status, output, faults, _ = on_bus([one, two], "lss", *SHORT, "--identity", "0x29C", "7", "0x10002", "1")
    assert status == 0 and output.endswith("; its number is 9\n"), output
    status, output, faults, _ = on_bus([one, two], "lss", *SHORT, "--identity", "0x29C", "7", "0x10002", "3")
    assert (status, faults) == (1, "cobtool: no device answers to this identity\n") and not one.lss.is_open, faults


def test_several_devices_are_never_set_together():
    one, two = slave(1), slave(2)
    status, output, faults, rack = on_bus([one, two], "lss", *SHORT, "--yes", "--set-node", 6)
    assert (status, output, faults) == (1, "", "cobtool: 2 devices answer: all of them would be set\n") and one.lss.number == two.lss.number == 255
    assert rack.frames[-1] == (0x7E5, b"\4" + bytes(7)) and not one.lss.is_open
    status, output, faults, rack = on_bus([one], "lss", *SHORT, "--set-node", 6)
    assert status == 2 and one.lss.number == 255 and "--yes sends it without asking" in faults and not one.lss.is_open
    status, _, faults, _ = on_bus([one], "lss", *SHORT, "--yes", "--set-bitrate", 800)
    assert (status, faults) == (1, "cobtool: it hasn't this bit rate\n")
    status, output, faults, _ = on_bus([one], "lss", *SHORT, "--yes", "--set-node", 6, "--set-bitrate", 800, "--store")
    assert (status, faults) == (1, "cobtool: it hasn't this bit rate\n") and output.endswith("\ndone: give it the number 6\n"), output
    assert one.lss.number == 6 and not one.lss.is_stored
    status, _, faults, rack = on_bus([one], "lss", *SHORT, "--yes", "--cobench", recorded(), "--script", script(), "--set-node", 9)
    assert (status, rack.frames) == (2, []) and "net.txt has no node 9" in faults


# Reading a device back.

MORE = """[2003]
ParameterName=Gain
DataType=8
AccessType=rw
[2004]
ParameterName=Log
DataType=15
AccessType=rw
[2005]
ParameterName=Limits
ObjectType=8
DataType=3
AccessType=rw
CompactSubObj=2
[2005Value]
NrOfEntries=1
1=-4
[2006]
ParameterName=Target
DataType=6
AccessType=rww
PDOMapping=1
[1400sub1]
DataType=7
DefaultValue=$NODEID+0x80000200
[1400sub2]
DataType=5
DefaultValue=255
[1600]
ObjectType=8
DataType=7
CompactSubObj=2
[1600sub0]
DataType=5
DefaultValue=0
[DeviceComissioning]
NodeID=3
NodeName=other
"""
HELD = {(0x2001, 0): b"\x2C\1", (0x2000, 0): b"left", (0x2003, 0): bytes.fromhex("00002040"), (0x2004, 0): b"\1\2\3", (0x2005, 1): b"\xFE\xFF",
        (0x2006, 0): b"\x11\0", (0x1400, 1): bytes.fromhex("05020000"), (0x1600, 0): b"\1", (0x1600, 1): bytes.fromhex("10000620"),
        (0x1800, 1): bytes.fromhex("85010000"), (0x1A00, 0): b"\1", (0x1A00, 1): bytes.fromhex("10000120")}


def test_a_device_is_read_back_into_a_dcf():
    put("a.eds", (SHEET + MORE).encode())
    made = bus_device.Device(5, (SHEET + MORE).encode().split(b"\n"), own=HELD)
    del made.entries[0x1017, 0]
    status, output, faults, rack = on_bus([made], "upload", "--timeout", "3000", "--eds", "a.eds", 5)
    assert status == 0 and {data[0] for data in rack.requests(5)} <= {0x40, 0x60, 0x70}, faults
    assert faults == ("a.eds:5: warning: 1017h:00 Heartbeat time: abort 06020000 no such object; the DCF has no value of it\n"
                      "note: left out, as RPDOs of the device write them: 2006h:00 Target\n"), faults
    sections = dict((part.split("]")[0], part.split("]")[1].split()) for part in output.split("[")[1:])
    assert sections["2001"][-1] == "ParameterValue=0x012C" and sections["2000"][-1] == "ParameterValue=left"
    assert sections["2003"][-1] == "ParameterValue=2.5" and sections["2004"][-1] == "ParameterValue=010203"
    assert sections["2005Value"] == ["NrOfEntries=2", "1=-2", "2=0"] and output.count("[2005Value]") == 1
    assert "ParameterValue" not in str(sections["2006"] + sections["2002"] + sections["1000"]), sections
    assert sections["1800sub1"][-1] == "ParameterValue=0x00000185" and sections["1A00Value"] == ["NrOfEntries=1", "1=0x20010010"], sections
    assert sections["DeviceComissioning"] == ["NodeID=5", "NodeName=node_5"] and output.count("omissioning") == 1
    put("5.dcf", output.encode())
    status, imported, faults = cobtool("import", "5.dcf")
    lines = imported.decode().splitlines()
    assert status == 0 and "param 5 2001 0 0x012C" in lines and "param 5 2000 0 left" in lines and "param 5 2005 1 -2" in lines, lines
    assert any(line.startswith("message ") and " 5 1 255 0 0 " in line for line in lines), lines
    assert any(line.startswith("source ") and line.endswith(" 1 2001 0") for line in lines), lines


def test_what_does_not_answer_gives_no_dcf():
    put("a.eds", SHEET.encode())
    made = devices()[0]
    made.faults[4] = bus_device.dies
    status, output, faults, _ = on_bus([made], "upload", "--timeout", "300", "--eds", "a.eds", 5)
    assert status == 1 and not output and faults.endswith("no answer in 300 ms; nothing is printed\n"), faults
    status, output, faults, rack = on_bus([made], "upload", 5)
    assert status == 2 and not rack.frames and "--script or --eds names the data sheet" in faults


def test_a_download_is_read_back_as_its_script():
    """What is downloaded is uploaded and imported: the same parameters and the same message come out."""
    made, path = devices(), script()
    assert on_bus(made, "download", *QUICK, "--cobench", recorded(), "--yes", path)[0] == 0
    for device, name in zip(made, ("pump", "fan")):
        status, output, faults, _ = on_bus(made, "upload", "--timeout", "3000", "--cobench", recorded(), "--script", path, device.number)
        assert status == 0 and not faults, faults
        put(f"{name}.dcf", output.encode())
    lines = cobtool("import", "pump.dcf", "fan.dcf")[1].decode().splitlines()
    assert [line for line in lines if line.startswith(("param", "bitrate", "node", "source"))] == [
        "bitrate 250", "node 5 pump pump", "param 5 2000 0 ABCDEFGHI", "param 5 2001 0 0x012C", "node 6 fan pump", "param 6 2001 0 0x0006",
        f"source {lines[-1].split()[1]} 1 2001 0"], lines
