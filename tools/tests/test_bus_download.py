"""`bus download` and `verify`: the planned frames, faults in the middle, and what is never started."""
import re
import signal
import time

import bus_clock
import bus_device
import bus_running
import conform_judge
from bus_scene import Rack, here, on_bus, python_can
from helper import Skipped, in_parallel, put, real, real_once, recorded

from cobench_tools.bus.connection import Connection
from cobench_tools.bus.download import Download, Network
from cobench_tools.bus.neighbours import Neighbours
from cobench_tools.bus.planned import Planned
from cobench_tools.bus.sdo_client import SdoClient
from cobench_tools.load import Load
from cobench_tools.logs import writers
from cobench_tools.trace import Frame
from cobench_tools.traffic import SYNC

NUMBERS = 0, 6, 7, 210
FULL_BUS = 210,     # of the 300 the one whose SYNC and PDOs of each SYNC take more than the whole bus: 101.2 %
LONG = "--timeout", "3000"      # a machine that is busy answers late
QUICK = "--yes", "--listen", "0", *LONG
RUNNING = 0.3       # seconds for which a machine runs once it is started

SHEET = """[1000]
DataType=7
AccessType=ro
DefaultValue=0x00020192
[1017]
ParameterName=Heartbeat time
DataType=6
[1018sub1]
DataType=7
AccessType=ro
DefaultValue=0x29C
[2000]
ParameterName=Label
DataType=9
AccessType=rw
[2001]
ParameterName=Speed
DataType=6
AccessType=rw
PDOMapping=1
HighLimit=9000
[2002]
ParameterName=Command
DataType=5
AccessType=wo
[1800]
ObjectType=9
SubNumber=3
[1800sub1]
DataType=7
DefaultValue=$NODEID+0x80000180
[1800sub2]
DataType=5
DefaultValue=255
[1A00]
ObjectType=8
DataType=7
CompactSubObj=4
[1A00sub0]
DataType=5
DefaultValue=0
"""
LINES = ["bitrate 250", "horizon 300000", "manager 127 0 0 500", "eds a <a.eds", "node 5 pump a", "node 6 fan a", "param 5 2000 0 ABCDEFGHI",
         "param 5 2001 0 300", "param 5 2002 0 7", "param 6 2001 0 $NODEID", "message speed 5 1 255 0 0 0", "source speed 1 2001 0", "trace"]


def script(*more, version=1):
    """The script of a pump and a fan, with these lines before its trace."""
    put("a.eds", SHEET.encode())
    lines = [f"version {version}"] * (version > 1) + LINES[:-1] + list(more) + LINES[-1:]
    return put("net.txt", "".join(f"{line}\n" for line in lines).encode())


def devices():
    return [bus_device.Device(number, SHEET.encode().split(b"\n")) for number in (5, 6)]


def run(action, made, *words, also=()):
    """What an action does with the two on a bus: status, output, faults, and the rack."""
    return on_bus(made, action, *(QUICK if action == "download" else LONG), "--cobench", recorded(), *words, also=also)


# The frames.

def requests_of(plan, node):
    """The SDO requests to a node in the planned run."""
    return [line.data for line in plan.lines if isinstance(line, Frame) and line.identifier == 0x600 + node]


def has_planned_frames(plan, rack):
    """The requests to each node begin with those of the planned run, as far as that goes; behind them values are read back."""
    for node in plan.nodes:
        wanted, sent = requests_of(plan, node), rack.requests(node)
        if sent[:len(wanted)] != wanted:
            return False
        written = [data for data in sent if data[0] >> 5 in (0, 1)]
        if len(wanted) < len(sent) and not all(data[0] >> 5 in (0, 1, 2, 3) for data in sent) or not written:
            return False
    return True


def test_the_node_that_is_the_manager_is_left_out_unless_it_is_named():
    """The manager of the plan doesn't boot it, and neither does the command: all that it boots are booted then, mandatory ones too."""
    path = script("manager 6 0 0 500", "need 5 mandatory", "need 6 mandatory", version=3)
    status, output, faults, rack = run("download", devices(), path)
    assert (status, faults) == (0, "") and output.endswith("started\nno errors; 1 of 1 node configured, 1 started\n"), (output, faults)
    assert not rack.requests(6) and rack.commands() == [b"\1\5"], rack.frames[-3:]
    status, output, faults, rack = run("download", devices(), path, "6")
    assert status == 0 and output == "node 6 fan: 1 write confirmed and read back; started\nno errors; 1 of 1 node configured, 1 started\n", (output, faults)
    put("net.txt", "".join(f"{line}\n" for line in ["version 3", "manager 6 0 0 500", "eds a <a.eds", "node 6 fan a"]).encode())
    assert run("download", devices(), "net.txt")[:3] == (2, "", "cobtool: net.txt has no node but the manager\n")


def test_the_requests_are_those_of_the_planned_run():
    """Worked out by hand for the pump: who it is, then its writes in order of the concise DCF; then what can be read, read back."""
    made, path = devices(), script()
    status, output, faults, rack = run("download", made, path)
    assert (status, faults) == (0, ""), faults
    assert output == ("node 5 pump: 9 writes confirmed and read back; started\nnode 6 fan: 1 write confirmed and read back; started\n"
                      "no errors; 2 of 2 nodes configured, 2 started\n"), output
    plan = Planned(path, recorded())
    assert has_planned_frames(plan, rack) and len(requests_of(plan, 5)) == 13, requests_of(plan, 5)
    assert [data.hex() for data in rack.requests(5)][:6] == [
        "4000100000000000", "4018100100000000", "2100200009000000", "0041424344454647", "1b48490000000000", "2b0120002c010000"]
    assert [data.hex() for data in rack.requests(6)] == ["4000100000000000", "4018100100000000", "2b01200006000000", "4001200000000000"]
    assert rack.commands() == [b"\1\5", b"\1\6"] and made[0].state == made[1].state == bus_device.OPERATIONAL
    place = [identifier for identifier, _ in rack.frames].index(0)
    assert all(identifier != 0x606 for identifier, _ in rack.frames[:place]), "the pump is started before the fan is asked"


def test_by_version_2_one_command_starts_all():
    for more in (["need 5 mandatory"], ["need 5 mandatory", "need 6 mandatory"], []):
        status, output, faults, rack = run("download", devices(), script(*more, version=2))
        assert status == 0 and rack.commands() == [b"\1\0"] and rack.frames[-1] == (0, b"\1\0"), (more, faults, rack.commands())


def test_by_version_3_each_is_started_by_itself_once_all_mandatory_ones_are_configured():
    for more in (["need 6 mandatory"], []):
        status, output, faults, rack = run("download", devices(), script(*more, version=3))
        assert status == 0 and rack.commands() == [b"\1\5", b"\1\6"], (more, faults, rack.commands())
        assert [identifier for identifier, _ in rack.frames][-2:] == [0, 0], "no request comes behind the starts"
    for more, faulty, commands in ((["need 5 mandatory"], 5, []), (["need 5 mandatory"], 6, [b"\1\5"]), ([], 5, [b"\1\6"])):
        made = devices()
        made[faulty - 5].faults[3] = bus_device.aborted(0x06090031)
        status, output, faults, rack = run("download", made, script(*more, version=3))
        assert status == 1 and rack.commands() == commands, (more, faulty, rack.commands())


def test_by_version_2_nothing_is_started_without_a_mandatory_node():
    """Where an optional one fails, the command to all would start it too: so the others are started by themselves."""
    cases = [(["need 5 mandatory"], 5, []), (["need 5 mandatory"], 6, [b"\1\5"]), ([], 5, [b"\1\6"]), (["need 6 mandatory"], 5, [b"\1\6"])]
    for more, faulty, commands in cases:
        made = devices()
        made[faulty - 5].faults[3] = bus_device.aborted(0x06090031)
        status, output, faults, rack = run("download", made, script(*more, version=2))
        assert status == 1 and rack.commands() == commands, (more, faulty, rack.commands())
        assert ("the network isn't started: mandatory and not configured: node 5 pump\n" in output) == (not commands), output


def test_a_node_by_itself_is_started_by_itself():
    for version in (1, 2):
        status, output, faults, rack = run("download", devices(), script(version=version), 6)
        assert status == 0 and rack.commands() == [b"\1\6"] and not rack.requests(5), output
    status, output, _, rack = run("download", devices(), "--no-start", script())
    assert status == 0 and not rack.commands() and output.startswith("node 5 pump: 9 writes confirmed and read back; not started\n")
    rack = run("download", devices(), "--no-read-back", script())[3]
    assert len(rack.requests(5)) == 13 and rack.commands() == [b"\1\5", b"\1\6"]


# What goes wrong.

def test_an_abort_is_told_with_its_line_and_what_is_written():
    made = devices()
    made[0].faults[6] = bus_device.aborted(0x06090031)      # behind two reads and three frames for the label: the speed
    status, output, _, rack = run("download", made, script())
    lines = output.splitlines()
    assert status == 1 and lines[0] == ("net.txt:8: error: node 5 pump: 2001h:00 Speed := 300 (12Ch): abort 06090031 value too high [sdo-abort]")
    assert lines[1] == ("net.txt:8: note: 1 of 9 writes are confirmed, the last one 2000h:00 Label := ABCDEFGHI; the node isn't started"), lines[1]
    assert lines[2:] == ["node 6 fan: 1 write confirmed and read back; started", "1 error; 1 of 2 nodes configured, 1 started"], lines
    assert rack.commands() == [b"\1\6"] and rack.requests(5)[-1].hex() == "2b0120002c010000"


def test_another_device_is_not_written_to():
    made = devices()
    made[0].entries[0x1018, 1].data = bytes.fromhex("9D020000")
    status, output, _, rack = run("download", made, script())
    assert status == 1 and output.startswith("net.txt:5: error: node 5 pump: 1018h:01 ") or "a.eds" in output, output
    assert "the device has 0000029Dh, and the data sheet 0000029Ch: it is another device [identity]" in output and len(rack.requests(5)) == 2
    status, output, _, rack = run("verify", made, script())
    assert "[identity]" in output, output


def test_what_is_read_back_otherwise_is_not_started():
    """The device takes 300 and holds 299."""
    made = devices()

    def holds_less(device, data):
        answers = device.answers(data)
        device.entries[0x2001, 0].data = b"\x2B\1"
        return answers
    made[0].faults[6] = holds_less
    status, output, _, rack = run("download", made, script())
    assert status == 1 and output.startswith("net.txt:8: error: node 5 pump: 2001h:00 Speed: 300 (12Ch) is planned, and the device has 299 (12Bh) "
                                             "[differs]\nnet.txt:8: note: 9 of 9 writes are confirmed; the node isn't started\n"), output
    assert rack.commands() == [b"\1\6"]


def test_ctrl_c_leaves_the_node_unstarted_and_says_what_is_written():
    made = devices()
    made[1].faults[4] = bus_device.interrupted()      # the first value of the fan that is read back
    status, output, faults, rack = run("download", made, script())
    assert status == 130 and rack.commands() == [b"\1\5"], (status, rack.commands())
    assert output == ("node 5 pump: 9 writes confirmed and read back; started\nnode 6 fan: 1 of 1 writes are confirmed; the node isn't started\n"
                      "no errors; 1 of 2 nodes configured, 1 started\n"), output
    made = devices()
    made[0].faults[6] = bus_device.interrupted(signal.SIGTERM)
    status, output, faults, rack = run("download", made, script())
    assert status == 130 and not rack.commands() and not rack.requests(6)
    assert output.startswith("node 5 pump: 1 of 9 writes are confirmed, the last one 2000h:00 Label := ABCDEFGHI; whether 2001h:00 Speed := 300 (12Ch) "
                             "is written isn't known; the node isn't started\nnode 6 fan: nothing is written\n"), output
    assert rack.requests(5)[-1].hex() == "8001200000000008", "the open transfer is ended"


class Unplugged(bus_clock.ClockedBus):
    """A bus whose adapter is pulled out after so many frames that were sent."""

    left = 6

    def send(self, message, timeout=None):
        if not self.left:
            raise self.can.CanError("unplugged")
        self.left -= 1
        super().send(message)


def test_where_the_adapter_fails_it_is_told_what_is_written():
    path = script()
    made = [bus_running.Running(number, SHEET.encode().split(b"\n")) for number in (5, 6)]
    with bus_clock.used(Unplugged(made, 250)):
        status, output, faults = here("bus", "download", *QUICK, "--interface", "virtual", "--cobench", recorded(), path)
    assert status == 2 and faults == "cobtool: the adapter takes no frame: unplugged\n", faults
    assert output.startswith("node 5 pump: 2 of 9 writes are confirmed, the last one 2001h:00 Speed := 300 (12Ch); whether 2002h:00 "
                             "Command := 7 is written isn't known; the node isn't started\nnode 6 fan: nothing is written\n"), output
    assert not made[0].starts and made[0].entries[0x2001, 0].data == b"\x2C\1"


KINDS = {"lost request": bus_device.lost_request, "lost answer": bus_device.lost_answer, "abort": bus_device.aborted(), "wrong toggle":
         bus_device.wrong_toggle, "reset": bus_device.reset, "reset behind": bus_device.reset_behind, "quiet reset": bus_device.quiet_reset,
         "twice": bus_device.twice, "slow": bus_device.slow(0.02), "dies": bus_device.dies}


def scenario(plan, kind, number):
    """A download where a fault of a kind acts at a request of the pump: what it was, and the devices."""
    can, made, channel = python_can(), devices(), f"fault {kind} {number} {time.monotonic_ns()}"
    made[0].faults[number] = KINDS[kind]
    rack = Rack(made, channel)
    rack.start()
    try:
        with Connection(can, can.Bus(interface="virtual", channel=channel)) as bus:
            others = Neighbours(plan.manager)
            bus.observers.append(others.take)
            downloads = [Download(plan, SdoClient(bus, device.number, 0.06), others) for device in made]
            network = Network(plan, downloads, bus, others)
            network.run(lambda: None)
    finally:
        rack.close()
    return network, made


def why_unsafe(plan, kind, number):
    """Why a download with a fault isn't as it should be, "" where it is."""
    network, made = scenario(plan, kind, number)
    for device in made:
        for start in device.starts:
            if any(start[key] != data for key, data in plan.values(device.number).items()):
                return f"{kind} at {number}: node {device.number} is started with other values"
    fine = kind == "slow" or kind == "wrong toggle" and not made[0].starts == []
    if not fine and (network.downloads[0].is_started or not network.downloads[0].finding):
        return f"{kind} at {number}: the pump is started, or nothing is told"
    return "" if network.downloads[1].is_started == (not made[1].starts == []) else f"{kind} at {number}: the fan"


# The pump's requests: two numbers, eleven frames of writes, and eight to read back, three of them for the label.
WRITES, ALL = range(3, 14), range(1, 22)


def places(kind):
    """A reset whose boot-up message is lost shows by the values that are read back, so that it has to come before these."""
    return WRITES if kind == "quiet reset" else ALL


def unsafe_ones(kind_and_version):
    """Why downloads with a kind of fault at each request in turn aren't as they should be, by a version of the script."""
    kind, version = kind_and_version
    plan = Planned(script(*["need 5 mandatory"] * (version == 2), version=version), recorded())
    assert len(requests_of(plan, 5)) == WRITES[-1]
    return list(filter(None, (why_unsafe(plan, kind, number) for number in places(kind))))


def test_a_fault_at_any_request_starts_nothing():
    python_can()
    wrong = in_parallel(unsafe_ones, [(kind, version) for kind in KINDS for version in (1, 2)])
    assert not any(wrong), wrong


# What is refused.

def test_a_download_is_refused_before_a_frame_is_sent():
    cases = [((), [(0x77F, b"\5")], "another master is on the bus: it sends the heartbeat of the manager, node 127 (77Fh)"),
             ((), [(0x606, b"\x40" + bytes(7))], "another master is on the bus: it sends SDO requests to node 6 (606h)"),
             ((), [(0x706, b"\5")], "node 6 fan: operational; --reset resets it first"),
             ((7,), [], "net.txt has no node 7"), ((127,), [], "net.txt has no node 127: it is the manager")]
    for nodes, also, says in cases:
        status, output, faults, rack = run("download", devices(), "--listen", "300", script(), *nodes, also=also)
        assert (status, output) == (2, "") and says in faults and not rack.frames, faults
    status, output, faults, rack = run("download", devices(), "--listen", "300", "--force", script(), also=[(0x77F, b"\5")])
    assert status == 0 and faults.startswith("warning: another master is on the bus: it sends the heartbeat of the manager"), faults
    status, output, faults, rack = run("download", devices(), script("param 9 2001 0 1"))
    assert status == 2 and not rack.frames and faults == "cobtool: net.txt has 1 error, which cobtool check tells; --force sends it all the same\n"
    assert run("download", devices(), "--allow", "refused", script("param 9 2001 0 1"))[0] == 0


def test_a_stranger_is_told_and_not_started():
    status, output, faults, rack = run("download", devices(), "--listen", "300", script(version=2), also=[(0x70C, b"\x7F")])
    assert status == 0 and faults == "warning: node 12 is on the bus, and isn't planned\n", faults
    assert rack.commands() == [b"\1\5", b"\1\6"], rack.commands()


def test_a_download_asks_first():
    status, output, faults, rack = on_bus(devices(), "download", "--listen", "0", "--cobench", recorded(), script())
    assert (status, output, rack.frames) == (2, "", []) and "--yes sends it without asking" in faults


def test_with_reset_each_node_boots_first():
    made = devices()
    made[0].state = bus_device.OPERATIONAL
    status, output, _, rack = run("download", made, "--reset", script())
    assert status == 0 and rack.frames[:2] == [(0, b"\x81\5"), (0, b"\x81\6")] and rack.commands()[2:] == [b"\1\5", b"\1\6"], rack.commands()


# The comparison.

def test_one_value_that_was_changed_by_hand_is_told_alone():
    made, path = devices(), script()
    assert run("download", made, path)[0] == 0
    status, output, _, rack = run("verify", made, path)
    assert (status, output) == (0, "no errors; 2 nodes, 11 values compared, 1 that can only be written not among them\n"), output
    assert {data[0] for data in rack.requests(5)} == {0x40, 0x60, 0x70} and not rack.commands()
    made[0].entries[0x1800, 1].data = bytes.fromhex("85010080")
    status, output, _, _ = run("verify", made, path, 5)
    assert status == 1 and output == ("net.txt:11: error: node 5 pump: 1800h:01: 185h is planned, and the device has 185h (off) [differs]\n"
                                      "1 error; 1 node, 8 values compared, 1 that can only be written not among them\n"), output
    assert run("verify", made, "--allow", "differs 5 1800", path)[0] == 0
    del made[0].entries[0x2001, 0]
    made[1].is_dead = True
    status, output, _, _ = run("verify", made, "--timeout", "300", path)
    assert "2001h:00 Speed: 300 (12Ch) is planned, and reading it ends by abort 06020000 no such object [sdo-abort]" in output, output
    assert "node 6 fan: 1000h:00: no answer in 300 ms [sdo-unanswered]" in output, output


class Machine:
    """The devices and the manager of a network of a number on a bus with a clock of its own."""

    def __init__(self, number, program):
        put("net.txt", conform_judge.script_of(number))
        self.number, self.program, self.plan = number, program, Planned("net.txt", program)
        nodes, texts = self.plan.project.nodes, self.plan.project.texts
        self.devices = [bus_running.Running(node, texts[eds]) for node, (_, eds) in nodes.items()]
        self.bus = bus_clock.ClockedBus([*self.devices, bus_clock.Manager(self.plan)], self.plan.project.bitrate)

    def run(self, action, *words):
        """What an action does on it: status, output and faults."""
        with bus_clock.used(self.bus):
            return here("bus", action, *words, "--timeout", "3000", "--interface", "virtual", "--cobench", self.program, "net.txt")

    def why_wrong(self):
        """Why it isn't downloaded as planned, "" where it is; every second network is reset first."""
        reset = ["--reset"] if self.number % 2 else []
        status, output, faults = self.run("download", "--yes", "--force", *reset, "--log", "boot.log")
        self.bus.run(RUNNING)
        if status or not has_planned_frames(self.plan, self.bus) or not all(device.starts for device in self.devices):
            return f"{self.number}: download: {status} {output} {faults}"
        put("machine.log", writers.log_of(self.bus.recorded, "log", 1).encode())
        if self.is_full() != (self.number in FULL_BUS):
            return f"{self.number}: the bus is full, or isn't any more"
        silent = self.without_an_answer() if self.is_full() else ""
        status, output, faults = self.run("verify")
        if silent or status or not output.startswith("no errors; "):
            return silent or f"{self.number}: verify: {output} {faults}"
        return self.one_changed() or self.conforms("boot.log") or self.conforms("machine.log")

    def is_full(self):
        """Whether SYNC and what comes at each one or each nth fill the bus, as `load` reckons it without stuff bits: they go
        before SDO, so that no request has its turn while the machine runs."""
        load = Load(self.plan.wiring, [])
        at_sync = [each for each in load.traffic if each.identifier == SYNC or each.is_of_sync() and each.tpdo.kind]
        return sum(map(load.plain.share, at_sync)) >= 100

    def without_an_answer(self):
        """No node has to answer while the machine runs, since the bus is full, which is told; then all are pre-operational."""
        status, output, faults = self.run("verify")
        told = re.findall(r": no answer in 3000 ms; frames filled the bus to (\d+) % meanwhile: .* \[sdo-unanswered\]\n", output)
        is_told = status == 1 and told and all(int(share) >= 99 for share in told) and output.endswith(", no values compared\n")
        self.bus.put(self.bus.senders[-1], [(0, b"\x80\0")])
        self.bus.run(RUNNING)
        return "" if is_told else f"{self.number}: verify on a full bus: {output} {faults}"

    def one_changed(self):
        """Changes the last bit of one entry by hand: it has to be told, and it alone."""
        plan, device = self.plan, self.devices[self.number % len(self.devices)]
        keys = [key for key, data in plan.values(device.number).items()
                if data and plan.is_readable(device.number, key) and key not in device.process()]
        if not keys:
            return ""
        key = keys[self.number % len(keys)]
        entry = device.entries[key]
        entry.data = bytes([entry.data[0] ^ 1]) + entry.data[1:]
        status, output, _ = self.run("verify")
        told = re.findall(r"(?m): error: node (\d+) .*?: ([0-9A-F]{4})h:([0-9A-F]{2}).* \[differs\]$", output)
        is_told = status == 1 and told == [(str(device.number), f"{key[0]:04X}", f"{key[1]:02X}")] and output.startswith("net.txt:")
        return "" if is_told else f"{self.number}: {key}: {output}"

    def conforms(self, log):
        """The recording of a download, and of the machine that runs behind it, is as planned."""
        status, output, faults = here("conform", "--cobench", self.program, "net.txt", log)
        return "" if status == 0 else f"{self.number}: conform {log}: {output} {faults}"


def download_and_verify(number, program):
    """Why the network of a number isn't downloaded as planned, "" where it is."""
    machine = Machine(number, program)
    return machine.why_wrong() if machine.plan.nodes else ""


def test_what_rpdos_have_changed_is_counted_alone():
    """The network of number 6 has an entry that its script sets and that a message writes; before the start it has to be as it was set."""
    machine = Machine(6, recorded())
    assert machine.run("download", "--yes", "--force", "--listen", "0", "--no-start")[0] == 0
    assert machine.run("verify")[:2] == (0, "no errors; 6 nodes, 92 values compared, 3 that can only be written not among them\n")
    machine.bus.put(machine.bus.senders[-1], [(0, b"\1\0")])
    machine.bus.run(RUNNING)
    assert machine.run("verify")[:2] == (0, "no errors; 6 nodes, 92 values compared, 3 that can only be written not among them; "
                                         "1 changed by RPDOs\n"), machine.run("verify")


def test_generated_networks_are_downloaded_and_compared():
    for number in NUMBERS:
        why = download_and_verify(number, recorded())
        assert why == "", why


def one_of_many(number):
    return download_and_verify(number, real_once())


def test_three_hundred_networks_are_downloaded_and_compared():
    python_can()
    try:
        real()
    except Skipped as why:
        raise Skipped(f"{why}; a cobench is needed to plan 300 networks") from None
    wrong = list(filter(None, in_parallel(one_of_many, range(300))))
    assert not wrong, (len(wrong), wrong[:5])
