"""What `check` says of the planned run: emergencies, nodes that fall, messages that never come, boots that aren't over."""
import os

from helper import EXAMPLES, put, recorded, run

HEAD = """version 2
bitrate 250
horizon 1000000
manager 127 10000 100 500
eds servo <servo_drive.eds
eds motion <motion_controller.eds
node 1 x_axis servo
node 10 motion motion
need 1 mandatory
"""
MESSAGE = """message x_actual 1 1 1 0 0 0
source x_actual 1 6041 0
source x_actual 2 6064 0
sink x_actual 1 10 2200 1
sink x_actual 2 10 2201 1
"""

# The controller watches the axis, whose heartbeat comes each 100 ms, for 150 ms.
WATCHED = HEAD + "need 10 mandatory\nparam 1 1017 0 100\nparam 10 1016 1 0x00010096\n" + MESSAGE

# SYNC each millisecond takes 376 us at 125 kbit/s, and the position at each SYNC 760 us.
FULL = HEAD.replace("bitrate 250", "bitrate 125").replace("127 10000 100", "127 1000 0") + MESSAGE + """message late 10 4 255 0 0 6DF
source late 1 2100 1
sink late 1 1 6040 0
"""


def check(text, *words):
    """The status and the lines of `check` of a script over the data sheets of the examples."""
    for name in ("servo_drive.eds", "motion_controller.eds"):
        if not os.path.exists(name):
            os.symlink(os.path.join(EXAMPLES, name), name)
    put("net.txt", text.encode())
    status, output, faults = run("check", "--cobench", recorded(), *words, "net.txt")
    assert not faults, faults
    return status, output.decode().splitlines()


def test_a_drive_that_falls_to_pre_operational_is_an_error():
    """The axis waits 10 ms for the controller, whose boot-up comes at 26.216 ms and whose boot ends at 51.512 ms."""
    status, lines = check(HEAD.replace(" 100 500", " 0 500") + "param 1 1016 1 0x000A000A\nparam 10 1017 0 5\n" + """\
message controls 10 1 1 0 0 0
source controls 1 2100 1
sink controls 1 1 6040 0
message targets 10 2 1 0 0 0
source targets 1 2101 1
sink targets 1 1 607A 0
""" + MESSAGE + "trace\n")
    assert (status, lines) == (1, [
        "net.txt:7: error: node 1 x_axis: isn't operational at the end, 1,000.000 ms: it was started at 25.712 ms, fell to "
        "pre-operational at 36.996 ms by EMCY 8130h, and nothing starts it again [not-operational]",
        "net.txt:18: note: message x_actual comes last at 30.780 ms",
        "net.txt:10: error: node 1 x_axis: sends EMCY 8130h (heartbeat error) at 36.996 ms, which no event explains: 1016h:01 waits "
        "10 ms for node 10 motion, which isn't configured till 51.512 ms, and the bus was full of SDO from 0.000 to 52.648 ms "
        "[emergency]",
        "2 errors, no warnings; 2 of 2 nodes booted by 51.512 ms"]), lines


def test_what_the_run_shows_can_be_accepted():
    text = WATCHED.replace("1 1017 0 100", "1 1017 0 200")
    assert check(text)[0] == 1
    accepted = "--allow", "emergency 10 8130", "--allow", "not-operational 10"
    assert check(text, *accepted)[0] == 0 and "2 accepted" in check(text, *accepted)[1][-1]


def test_a_heartbeat_that_comes_too_seldom_is_an_error():
    """The axis is heard at 204.436 ms, 150 ms later it is missed, and the message of 444 us is there at 354.880 ms."""
    status, lines = check(WATCHED.replace("1 1017 0 100", "1 1017 0 200"))
    assert status == 1 and ("net.txt:12: error: node 10 motion: sends EMCY 8130h (heartbeat error) at 354.880 ms, and 3 more up to "
                            "954.880 ms, which no event explains: 1016h:01 waits 150 ms for node 1 x_axis [emergency]") in lines, lines


def test_events_explain_emergencies_and_what_follows():
    for event in ("power 1 off", "nmt 130 1", "set 1 1017 0 400", "set 10 1016 1 0x00010032"):
        assert check(WATCHED + f"event 1 300000 {event}\n") == (
            0, ["no errors, no warnings; 2 of 2 nodes booted by 23.904 ms"]), (event, check(WATCHED + f"event 1 300000 {event}\n"))
    assert check(WATCHED + "event 1 300000 power 10 off\nevent 2 400000 nmt 2 1\n")[0] == 0


def test_an_event_of_another_node_explains_nothing():
    text = WATCHED.replace("1 1017 0 100", "1 1017 0 200")
    for event in ("set 10 2100 1 1", "power 10 on", "set 1 6041 0 7"):
        status, lines = check(text + f"event 1 300000 {event}\n")
        assert status == 1 and sum("[emergency]" in line for line in lines) == 1, (event, lines)


def test_a_fall_that_an_nmt_command_mends_is_no_fall_at_the_end():
    """The controller is heard at the latest when it boots anew, so it fails twice; after the last time it is started again."""
    text = WATCHED.replace("1 1017 0 100", "1 1017 0 200") + "event 1 960000 nmt 1 10\n"
    status, lines = check(text)
    assert status == 1 and sum("[emergency]" in line for line in lines) == 1, lines
    assert not any("[not-operational]" in line for line in lines), lines


def test_a_message_that_a_full_bus_never_lets_through():
    status, lines = check(FULL + "need 10 mandatory\n")
    assert status == 1 and lines == [
        "net.txt:15: error: message late: is never sent as 6DFh, though node 10 motion is operational from 109.104 ms to 1,000.000 ms; "
        "the bus was full from 0.000 to 999.680 ms; cobtool load says of what [never-sent]",
        "1 error, no warnings; 2 of 2 nodes booted by 108.600 ms"], lines


def test_a_boot_that_a_full_bus_keeps_from_its_end():
    status, lines = check(FULL)
    assert status == 1 and lines[:2] == [
        "net.txt:8: error: node 10 motion: isn't configured at the end, 1,000.000 ms: it sent no boot-up message; the bus was full from "
        "0.000 to 999.448 ms; cobtool load says of what [unconfigured]",
        "net.txt:15: note: so message late is never sent"], lines
    status, lines = check(FULL.replace("1000000", "12000") + "need 10 mandatory\n")
    assert [line.split("; ")[-1] for line in lines if line.endswith("[unconfigured]")] == [
        "the bus was full of SDO from 0.000 to 11.680 ms [unconfigured]"] * 2, lines
    assert "net.txt:7: note: it is mandatory" not in "".join(lines)


def test_a_network_that_isn_t_started_says_for_whom_it_waits():
    status, lines = check(HEAD + "event 1 0 power 1 off\n" + MESSAGE)
    assert status == 1 and lines[:3] == [
        "net.txt:7: error: node 1 x_axis: isn't configured at the end, 1,000.000 ms: it sent no boot-up message; event 1 has switched it "
        "off [unconfigured]",
        "net.txt:11: note: so message x_actual is never sent",
        "net.txt:7: note: it is mandatory, so the network isn't started; in wait: node 10 motion"], lines


def test_an_emergency_that_follows_from_a_failed_boot_is_its_note():
    """The axis isn't the device of its data sheet, so it is started with its default PDOs, whose 2 bytes are too few."""
    status, lines = check(WATCHED.replace("need 1 mandatory\n", "") + "event 1 300 set 1 1018 1 7\n")
    assert status == 1 and "[failed]" in lines[0] and not any("[emergency]" in line for line in lines), lines
    assert ("net.txt:8: note: so node 10 motion sends EMCY 8210h (PDO too short) at 12.232 ms, which no event explains: a frame 181h of "
            "2 bytes is too short for RPDO 1, which takes 6") == lines[1], lines


def test_a_frame_that_is_too_short_for_an_rpdo():
    """A second sender has the identifier of the position by its defaults, and sends one byte where the controller takes six."""
    sheet = ["[1800sub1]", "DataType=7", "DefaultValue=0x181", "[1800sub2]", "DataType=5", "DefaultValue=1", "[1A00sub0]", "DataType=5",
             "DefaultValue=1", "[1A00sub1]", "DataType=7", "DefaultValue=0x20000008", "[2000]", "DataType=5", "AccessType=ro", "PDOMapping=1"]
    text = WATCHED + f"eds short {len(sheet)}\n" + "\n".join(sheet) + "\nnode 3 third short\n"
    status, lines = check(text)
    assert status == 1 and any(": error: node 10 motion: sends EMCY 8210h (PDO too short) at " in line and
                               "a frame 181h of 1 byte is too short for RPDO 1, which takes 6 [emergency]" in line for line in lines), lines
