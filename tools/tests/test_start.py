"""`start`: a script of data sheets, which `check` passes."""
import os

from helper import EXAMPLES, example, file, is_fine, is_refused, kept, put, recorded, run

# A valve with a heartbeat and one TPDO that is on, of two entries, and a panel that can take the first of these.
VALVE = b"""[DeviceInfo]
BaudRate_500=0
[1017]
DataType=6
HighLimit=5000
[1800sub1]
DataType=7
DefaultValue=$NODEID+0x180
[1800sub2]
DataType=5
DefaultValue=1
[1A00sub0]
DataType=5
DefaultValue=2
[1A00sub1]
DataType=7
DefaultValue=0x60000008
[1A00sub2]
DataType=7
DefaultValue=0x60010010
[6000]
ParameterName=Opening
DataType=5
AccessType=ro
PDOMapping=1
[6001]
ParameterName=Flow
DataType=6
AccessType=ro
PDOMapping=1
"""
PANEL = b"""[1017]
DataType=6
HighLimit=50
[1400sub1]
DataType=7
DefaultValue=$NODEID+0x200
[2000]
DataType=5
AccessType=rww
PDOMapping=1
"""
SCRIPT = """\
version 2
bitrate 1000
horizon 1000000
#
# The manager has number 127, sends SYNC each 10 ms and no heartbeat, and waits 500 ms for an answer.
# Where it is one of the nodes, as a PLC mostly is, it has the number of that, in version 3.
manager 127 10000 0 500
#
# The data sheets, and a node of each. A number is that of the node's switches or of its LSS.
eds valve <valve.eds
eds Panel_7 <Panel 7.eds
node 1 valve valve
param 1 1017 0 100
node 2 Panel_7 Panel_7
"""
MESSAGE = """\
#
# message valve_1 1 1 1 0 0 0
#   Opening, 8 bits
# source valve_1 1 6000 0
# sink valve_1 1 2 2000 0
#   Flow, 16 bits
# source valve_1 2 6001 0
"""


def test_a_script_has_a_node_for_each_sheet_and_each_pdo_that_is_on():
    """A rate that a sheet rules out isn't taken, nor a heartbeat beyond its limit, nor a sink of another width."""
    put("valve.eds", VALVE)
    put("Panel 7.eds", PANEL)
    status, output, faults = run("start", "valve.eds", "Panel 7.eds")
    text = output.decode()
    assert status == 0 and not faults
    assert text[text.index("version"):].startswith(SCRIPT), text
    assert text.endswith(MESSAGE), text


def test_a_sheet_that_is_named_twice_is_two_nodes():
    put("valve.eds", VALVE)
    text = run("start", "valve.eds", "valve.eds")[1].decode()
    assert text.count("\neds ") == 1 and "\nnode 1 valve valve\n" in text and "\nnode 2 valve_2 valve\n" in text
    assert "# message valve_2_1 2 1 1 0 0 0\n" in text


def test_what_is_begun_passes_check():
    """Also once its messages are no comments any more."""
    os.chdir(EXAMPLES)
    sheets = "servo_drive.eds", "digital_io.eds", "rotary_encoder.eds", "plc.eds", "servo_drive.eds"
    begun = run("start", *sheets)[1]
    messages = begun.replace(b"# message", b"message").replace(b"# source", b"source").replace(b"# sink", b"sink")
    assert messages.count(b"\nmessage ") == 7 and messages.count(b"\nsink ") > 7
    for text in (begun, messages):
        status, output, faults = run("check", "--cobench", recorded(), "-", given=text)
        assert (status, faults) == (0, "") and b"no errors, no warnings; 5 of 5 nodes booted" in output, output


def test_a_pdo_of_a_fixed_mapping_asks_for_version_3():
    """The encoder's mapping is constant, the transmitter's identifier too: once their messages are wired, all is well."""
    for name in ("plc", "abs_36", "pt_2", "dx2"):
        put(f"{name}.eds", kept(f"machine/{name}.eds"))
    assert b"\nversion 2\n" in run("start", "plc.eds", "dx2.eds")[1]
    begun = run("start", "plc.eds", "abs_36.eds", "pt_2.eds")[1]
    messages = begun.replace(b"# message", b"message").replace(b"# source", b"source").replace(b"# sink", b"sink")
    assert b"\nversion 3\n" in begun and messages.count(b"\nmessage ") == 3 and messages.count(b"\nsink ") == 3, messages
    for text, said in ((begun, "TPDO 1 is sent with 183h though no message uses it"), (messages, "no errors, no warnings; 3 of 3 nodes booted")):
        status, output, faults = run("check", "--cobench", recorded(), "-", given=text + b"horizon 150000\n")
        assert (status, faults) == (0, "") and said in output.decode(), (output, faults)


def test_what_is_no_data_sheet_is_refused():
    put("valve.eds", VALVE)
    others = b"".join(b"BaudRate_%d=0\n" % rate for rate in (10, 20, 50, 125, 250, 1000))
    put("slow.eds", b"[2000]\nDataType=5\n[DeviceInfo]\n" + others)
    is_refused(run("start", "valve.eds", "nosuch.eds"), "nosuch.eds: No such file")
    is_refused(run("start", "valve.eds", example("servo_axes.txt")), "servo_axes.txt")
    is_refused(run("start", "valve.eds", "slow.eds"), "no bit rate in common")
    is_refused(run("start", *["valve.eds"] * 127), "127 nodes")
    is_refused(run("start", put("a #b.eds", VALVE)), "no script can name this file")


def test_the_example_network_is_fine():
    is_fine(run("check", "--cobench", recorded(), example("network.txt")),
            b"no errors, no warnings; 3 of 3 nodes booted by 30.940 ms\n")
    assert b"\r\n" in file(EXAMPLES, "rotary_encoder.eds") and b"M\xf6hring" in file(EXAMPLES, "rotary_encoder.eds")
