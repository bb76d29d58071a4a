"""A simulated CANopen device for the tests: its SDO server is written from CiA 301, apart from the client of the tools.

Its entries are those of a data sheet. Faults are planted by the number of the request at which they act.
"""
import binascii
import os
import signal
import struct
import time

from cobench_tools import data_types, values
from cobench_tools.device import Device as Sheet

PRODUCER = 0x1017, 0
BOOTING, STOPPED, OPERATIONAL, PRE_OPERATIONAL = 0, 4, 5, 127
SIGNATURES = {0x1010: struct.pack("<I", 0x65766173), 0x1011: struct.pack("<I", 0x64616F6C)}


class Abort(Exception):
    """The server ends a transfer with this code."""


class Entry:
    """An entry of the object dictionary: its data type, access, limits and bytes."""

    def __init__(self, entry, node):
        self.kind, self.access = entry.kind, entry.access
        self.low, self.high = values.limits_of(entry, node)
        self.default = values.default_of(entry, node)
        self.data = self.default

    def number(self, data):
        return int.from_bytes(data, "little", signed=self.kind in data_types.SIGNED)


class Device:
    """A node with an SDO server.

    number   its number
    entries  its object dictionary, by index and sub-index
    state    that of its network management; 127 once it is on
    faults   what goes wrong: by the number of the request, from 1 on, a function of the device and its answers
    does_blocks  whether it does block transfers
    kept     the sub-indexes of 1010h and 1011h that were written with their signatures; lss its LSS slave, None for none
    written  how often each entry was written; `starts` the values of all entries at each start that it obeyed
    """

    def __init__(self, number, sheet, does_blocks=True, own=()):
        self.number, self.does_blocks = number, does_blocks
        self.entries = {key: Entry(entry, number) for key, entry in Sheet(sheet, data_types.WHOLE).entries.items()}
        for key, data in dict(own).items():
            self.entries[key].default = self.entries[key].data = data
        self.state, self.faults, self.requests, self.starts = PRE_OPERATIONAL, {}, 0, []
        self.written, self.frames, self.is_dead, self.delay = {}, [], False, 0.0
        self.server, self.beat, self.lss, self.kept = Server(self), None, None, []

    # Frames in, frames out: pairs of identifier and bytes.

    def take(self, identifier, data):
        """What it sends on a frame."""
        if self.is_dead:
            return []
        if identifier == 0 and len(data) == 2 and data[1] in (0, self.number):
            return self.command(data[0])
        if identifier == 0x7E5 and self.lss:
            return [(0x7E4, bytes(answer).ljust(8, b"\0")) for answer in self.lss.take(data)]
        if identifier == 0x600 + self.number and self.state != STOPPED:
            return self.request(data)
        return []

    def command(self, service):
        if service == 1:
            self.starts.append({key: entry.data for key, entry in self.entries.items()})
            self.state = OPERATIONAL
        elif service == 2:
            self.state = STOPPED
        elif service == 128:
            self.state = PRE_OPERATIONAL
        elif service in (129, 130):
            return self.boot()
        return []

    def boot(self):
        """It boots: its values are the defaults."""
        for entry in self.entries.values():
            entry.data = entry.default
        self.state, self.written, self.server, self.beat = PRE_OPERATIONAL, {}, Server(self), None
        return [(0x700 + self.number, b"\0")]

    def request(self, data):
        self.requests += 1
        fault = self.faults.get(self.requests) or self.faults.get("all")
        if fault:
            return fault(self, data)
        return self.answers(data)

    def answers(self, data):
        return [(0x580 + self.number, answer) for answer in self.server.take(data)]

    def heartbeat(self, now):
        """Its heartbeat, where it is due at a microsecond."""
        entry = self.entries.get(PRODUCER)
        period = 1000 * int.from_bytes(entry.data, "little") if entry else 0
        if self.is_dead or not period:
            self.beat = None
            return []
        if self.beat is None:
            self.beat = now + period
        if now < self.beat:
            return []
        self.beat = now + period
        return [(0x700 + self.number, bytes([self.state]))]

    # The object dictionary.

    def read(self, key):
        entry = self.entries.get(key)
        if entry is None:
            raise Abort(0x06090011 if any(index == key[0] for index, _ in self.entries) else 0x06020000)
        if entry.access == "wo":
            raise Abort(0x06010001)
        return entry.data

    def check(self, key, data):
        """Whether a value can be written."""
        entry = self.entries.get(key)
        if entry is None:
            raise Abort(0x06090011 if any(index == key[0] for index, _ in self.entries) else 0x06020000)
        if entry.access in ("ro", "const"):
            raise Abort(0x06010002)
        if entry.kind in data_types.BITS and len(data) != (data_types.BITS[entry.kind] + 7) // 8:
            raise Abort(0x06070010)
        if entry.low is not None and entry.number(data) < entry.low:
            raise Abort(0x06090032)
        if entry.high is not None and entry.number(data) > entry.high:
            raise Abort(0x06090031)
        self.check_pdo(key, data)

    def check_pdo(self, key, data):
        """A PDO is changed only while it is off, and its mapping only while it has no entries."""
        index, sub = key
        if (0x1400 <= index < 0x1600 or 0x1800 <= index < 0x1A00) and sub == 1:
            old, new = (int.from_bytes(each, "little") for each in (self.entries[key].data, data))
            if not old >> 31 and not new >> 31 and (old ^ new) & 0x3FFFFFFF:
                raise Abort(0x06090030)
        elif 0x1600 <= index < 0x1800 or 0x1A00 <= index < 0x1C00:
            cob = self.entries.get((index - 0x200, 1))
            if cob and not int.from_bytes(cob.data, "little") >> 31:
                raise Abort(0x06010000)
            if sub and int.from_bytes(self.entries[index, 0].data, "little"):
                raise Abort(0x06010000)

    def write(self, key, data):
        self.check(key, data)
        if key[0] in SIGNATURES:
            if data != SIGNATURES[key[0]]:
                raise Abort(0x08000020)
            self.kept.append(key)
            return
        self.entries[key].data = data
        self.written[key] = self.written.get(key, 0) + 1
        if key == PRODUCER:
            self.beat = None


class LssSlave:
    """The LSS slave of a device (CiA 305): its identity, whether it is being configured, and what it was given."""

    RATES = (1000, 800, 500, 250, 125, None, 50, 20, 10)

    def __init__(self, identity, number=255):
        self.identity, self.number, self.rate, self.is_stored, self.is_open, self.matched = identity, number, None, False, False, 0

    def take(self, data):
        command, number = data[0], struct.unpack_from("<I", data, 1)[0]
        if command == 0x04:
            self.is_open = data[1] == 1
        elif 0x40 <= command <= 0x43:
            return self.select(command - 0x40, number)
        elif self.is_open and 0x5A <= command <= 0x5D:
            return [struct.pack("<BI", command, self.identity[command - 0x5A])]
        elif self.is_open and command == 0x5E:
            return [bytes([command, self.number])]
        elif self.is_open:
            return self.configure(command, data)
        return []

    def select(self, place, number):
        self.matched = self.matched + 1 if place == self.matched and self.identity[place] == number else 0
        if self.matched < 4:
            return []
        self.matched, self.is_open = 0, True
        return [[0x44]]

    def configure(self, command, data):
        if command == 0x11:
            is_fine = 1 <= data[1] <= 127
            self.number = data[1] if is_fine else self.number
            return [[command, int(not is_fine)]]
        if command == 0x13:
            is_fine = data[1] == 0 and data[2] < 9 and self.RATES[data[2]] is not None and self.RATES[data[2]] != 800
            self.rate = self.RATES[data[2]] if is_fine else self.rate
            return [[command, int(not is_fine)]]
        self.is_stored = command == 0x17
        return [[command, 0]]


class Server:
    """The server of a device's SDO (CiA 301, 7.2.4.3): it takes a frame, and gives those that it sends."""

    def __init__(self, device):
        self.device, self.key, self.phase = device, (0, 0), None
        self.data, self.toggle, self.size, self.place = b"", 0, 0, 0

    def take(self, frame):
        if len(frame) != 8:
            return []
        command = frame[0]
        if command == 0x80:
            self.phase = None
            return []
        try:
            if self.phase == "block download":
                return self.sub_block(frame)
            return self.specified(command >> 5, frame)
        except Abort as why:
            self.phase = None
            return [struct.pack("<BHBI", 0x80, *self.key, why.args[0])]

    def specified(self, client, frame):
        """By the client command specifier."""
        if client == 1:
            return self.begin_download(frame)
        if client == 0 and self.phase == "download":
            return self.download_segment(frame)
        if client == 2:
            return self.begin_upload(frame)
        if client == 3 and self.phase == "upload":
            return self.upload_segment(frame)
        if client == 6 and self.device.does_blocks:
            return self.end_block_download(frame) if frame[0] & 1 else self.begin_block_download(frame)
        if client == 5 and self.device.does_blocks:
            return self.block_upload(frame)
        raise Abort(0x05040001)

    def name(self, frame):
        self.key = struct.unpack_from("<HB", frame, 1)

    # Normal transfers.

    def begin_download(self, frame):
        self.name(frame)
        if frame[0] & 2:
            unused = frame[0] >> 2 & 3 if frame[0] & 1 else 0
            self.device.write(self.key, frame[4:8 - unused])
            self.phase = None
        else:
            if self.key not in self.device.entries or self.device.entries[self.key].access in ("ro", "const"):
                self.device.check(self.key, b"")
            self.phase, self.data, self.toggle = "download", b"", 0
            self.size = struct.unpack_from("<I", frame, 4)[0] if frame[0] & 1 else None
        return [struct.pack("<BHBI", 0x60, *self.key, 0)]

    def download_segment(self, frame):
        toggle = frame[0] >> 4 & 1
        if toggle != self.toggle:
            raise Abort(0x05030000)
        self.data += frame[1:8 - (frame[0] >> 1 & 7)]
        self.toggle ^= 1
        if frame[0] & 1:
            if self.size is not None and len(self.data) != self.size:
                raise Abort(0x06070010)
            self.device.write(self.key, self.data)
            self.phase = None
        return [bytes([0x20 | toggle << 4]) + bytes(7)]

    def begin_upload(self, frame):
        self.name(frame)
        self.data = self.device.read(self.key)
        if 1 <= len(self.data) <= 4:
            self.phase = None
            return [struct.pack("<BHB", 0x43 | 4 - len(self.data) << 2, *self.key) + self.data.ljust(4, b"\0")]
        self.phase, self.toggle = "upload", 0
        return [struct.pack("<BHBI", 0x41, *self.key, len(self.data))]

    def upload_segment(self, frame):
        toggle = frame[0] >> 4 & 1
        if toggle != self.toggle:
            raise Abort(0x05030000)
        part, self.data = self.data[:7], self.data[7:]
        self.toggle ^= 1
        if not self.data:
            self.phase = None
        return [bytes([toggle << 4 | 7 - len(part) << 1 | (not self.data)]) + part.ljust(7, b"\0")]

    # Block transfers.

    SEGMENTS = 5        # few in a block, so that short values take several

    def begin_block_download(self, frame):
        self.name(frame)
        if self.key not in self.device.entries:
            self.device.check(self.key, b"")
        self.phase, self.data, self.place = "block download", b"", 0
        self.size = struct.unpack_from("<I", frame, 4)[0] if frame[0] & 2 else None
        self.is_last, self.with_sum, self.lose = False, frame[0] & 4, getattr(self.device, "lose_segment", None)
        return [struct.pack("<BHBBBH", 0xA4, *self.key, self.SEGMENTS, 0, 0)]

    def sub_block(self, frame):
        """A segment: it counts only where it comes next; after the last of a block it says how many did."""
        number, is_last = frame[0] & 0x7F, frame[0] >> 7
        if self.lose == number:
            self.lose = None
        elif number == self.place + 1:
            self.place += 1
            self.data += frame[1:]
            self.is_last = is_last
        if number == self.SEGMENTS or is_last:
            taken, self.place = self.place, 0
            if self.is_last:
                self.phase = "block end"
            return [bytes([0xA2, taken, self.SEGMENTS]) + bytes(5)]
        return []

    def end_block_download(self, frame):
        if self.phase != "block end":
            raise Abort(0x05040001)
        data = self.data[:len(self.data) - (frame[0] >> 2 & 7)]
        if self.with_sum and binascii.crc_hqx(data, 0) != struct.unpack_from("<H", frame, 1)[0]:
            raise Abort(0x05040004)
        if self.size is not None and len(data) != self.size:
            raise Abort(0x06070010)
        self.device.write(self.key, data)
        self.phase = None
        return [b"\xA1" + bytes(7)]

    def block_upload(self, frame):
        part = frame[0] & 3
        if part == 0:
            self.name(frame)
            self.data, self.place, self.blocks = self.device.read(self.key), 0, frame[4]
            self.with_sum, self.phase = frame[0] >> 2 & 1, "block upload"
            self.lose = getattr(self.device, "lose_segment", None)
            return [struct.pack("<BHBI", 0xC6, *self.key, len(self.data))]
        if self.phase != "block upload":
            raise Abort(0x05040001)
        if part == 3:
            return self.block()
        if part == 2:
            self.place, self.blocks = self.place + 7 * frame[1], frame[2]
            if self.place >= max(len(self.data), 1):
                unused = self.place - len(self.data)
                return [bytes([0xC1 | unused << 2]) + struct.pack("<H", binascii.crc_hqx(self.data, 0)) + bytes(5)]
            return self.block()
        self.phase = None
        return []

    def block(self):
        found = []
        for number in range(1, min(self.blocks, self.SEGMENTS if self.blocks < self.SEGMENTS else self.blocks) + 1):
            part = self.data[self.place + 7 * (number - 1):][:7]
            is_last = self.place + 7 * number >= len(self.data)
            if self.lose != number:
                found.append(bytes([number | is_last << 7]) + part.ljust(7, b"\0"))
            else:
                self.lose = None
            if is_last:
                break
        return found


# Faults: each a function of the device and the request, which gives what the device sends.

def lost_request(device, data):
    """The request doesn't arrive."""
    return []


def lost_answer(device, data):
    """The request is obeyed, and its answer doesn't arrive."""
    device.answers(data)
    return []


def aborted(code=0x08000000):
    def fault(device, data):
        device.server.phase = None
        return [(0x580 + device.number, struct.pack("<BHBI", 0x80, *struct.unpack_from("<HB", data, 1), code))]
    return fault


def wrong_toggle(device, data):
    """The answer has the other toggle bit; that to a beginning has another command."""
    return [(identifier, bytes([answer[0] ^ 0x10]) + answer[1:]) for identifier, answer in device.answers(data)]


def segment_of_nothing(device, data):
    """A segment without a byte, behind which more are to come."""
    return [(0x580 + device.number, b"\x0E" + bytes(7))]


def reset(device, data):
    """It resets instead of answering."""
    return device.boot()


def reset_behind(device, data):
    """It answers, and resets."""
    return device.answers(data) + device.boot()


def quiet_reset(device, data):
    """It answers, and loses its values; its boot-up message is lost."""
    found = device.answers(data)
    device.boot()
    return found


def twice(device, data):
    """Another device of the same number answers too."""
    return device.answers(data) * 2


def slow(seconds):
    def fault(device, data):
        time.sleep(seconds)
        return device.answers(data)
    return fault


def dies(device, data):
    device.is_dead = True
    return []


def interrupted(number=signal.SIGINT):
    """The user types Ctrl-C, or a signal comes, and the device is slow."""
    def fault(device, data):
        os.kill(os.getpid(), number)
        time.sleep(0.05)
        return device.answers(data)
    return fault
