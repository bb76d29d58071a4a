"""What the frames of a trace mean, in the words of a project.

Which PDO a frame is, and what it carries, is read as the network itself has it: from the defaults of a
node's EDS, and from the writes by which the manager configures it in the trace. The controller, the node that
the manager runs in, isn't configured in it: its PDOs are those of its writes from the first moment on.
"""
import datetime
from collections import namedtuple

from . import device, pdo_writes, receiver_names
from .data_types import REALS
from .logs.rows import NAMES
from .trace import Foreign, Note

NMT, SYNC, EMCY, PDO, SDO, HEARTBEAT, TIME, OTHER, NOTE = ("NMT", "SYNC", "EMCY", "PDO", "SDO", "heartbeat", "TIME", "other",
                                                           "note")
KINDS = (NMT, SYNC, EMCY, PDO, SDO, HEARTBEAT, TIME, OTHER)

SERVICES = {1: "start", 2: "stop", 128: "enter pre-operational", 129: "reset node", 130: "reset communication"}
STATES = {0: "boot-up", 4: "stopped", 5: "operational", 127: "pre-operational"}
EMERGENCIES = {0: "no error any more", 0x8130: "heartbeat error", 0x8210: "PDO too short"}
ABORTS = {
    0x05030000: "toggle bit not alternated", 0x05040000: "SDO timed out", 0x05040001: "command not valid",
    0x05040002: "block size not valid", 0x05040003: "sequence number not valid", 0x05040004: "CRC error",
    0x05040005: "out of memory", 0x06010000: "access not supported", 0x06010001: "write only", 0x06010002: "read only",
    0x06020000: "no such object", 0x06040041: "cannot be mapped", 0x06040042: "PDO length exceeded",
    0x06040043: "parameters don't go together", 0x06040047: "incompatible inside the device", 0x06060000: "hardware error",
    0x06070010: "length does not match", 0x06070012: "length too high", 0x06070013: "length too low",
    0x06090011: "no such sub-index", 0x06090030: "invalid value", 0x06090031: "value too high", 0x06090032: "value too low",
    0x06090036: "maximum below minimum", 0x060A0023: "resource not available", 0x08000000: "general error",
    0x08000020: "cannot be transferred or stored", 0x08000021: "local control prevents it",
    0x08000022: "the device's state prevents it", 0x08000023: "no object dictionary", 0x08000024: "no data available",
}
MOST_MAPPED = 64
FIRST_DAY = datetime.date(1984, 1, 1)
PREDEFINED = {0x180: "TPDO 1", 0x280: "TPDO 2", 0x380: "TPDO 3", 0x480: "TPDO 4",
              0x200: "RPDO 1", 0x300: "RPDO 2", 0x400: "RPDO 3", 0x500: "RPDO 4"}


class Meaning:
    """What a line of a trace says.

    kind     NMT, SYNC, EMCY, PDO, SDO, heartbeat (boot-ups too), TIME, note, or other of what isn't of the network
    sender   the number of the node that sends it, None where that isn't known
    node     the number of the node that it is of, None where it is of none
    subject  the message, PDO or object that it is of
    text     all of it but time and identifier
    parts    of a PDO whose mapping is known, the label, bits and data type of each value, else None
    first    of SDO the text with what is read or written before the entry's name, else the text
    """

    def __init__(self, kind, sender, node, subject, text, parts=None, first=None):
        self.kind, self.sender, self.node, self.subject, self.text = kind, sender, node, subject, text
        self.parts, self.first = parts, first or text


class Pdo:
    """What is told of all frames of a PDO: whose it is, its subject and its parts, as in Meaning."""

    def __init__(self, sender, subject, parts):
        self.sender, self.subject, self.parts = sender, subject, parts

    def of(self, data):
        """The meaning of a frame."""
        values = data.hex(" ").upper() if self.parts is None else values_text(self.parts, data)
        return Meaning(PDO, self.sender, self.sender, self.subject, f"{self.subject}: {values}".rstrip(), self.parts)


# An SDO transfer: its object, the bytes so far, and how many segments came.
Transfer = namedtuple("Transfer", "key data segments")


def key_of(data):
    return int.from_bytes(data[1:3], "little"), data[3]


def segment_of(data):
    """The bytes of a segment, and whether it is the last one."""
    return data[1:8 - (data[0] >> 1 & 7)], bool(data[0] & 1)


def values_text(parts, data):
    """The values that a PDO has at its parts, each behind its label."""
    texts, start = [], 0
    for label, bits, kind in parts:
        texts.append(f"{label}={device.value_at(data, start, bits, kind)}" if bits else label)
        start += bits
    return " ".join(texts)


def moment_text(data):
    """The moment that a time stamp says (CiA 301, TIME_OF_DAY): its day, and the time in ms from midnight on."""
    milliseconds = int.from_bytes(data[:4], "little") & 0x0FFFFFFF
    return f"{day_text(int.from_bytes(data[4:6], 'little'))} {clock_text(milliseconds)}"


def day_text(days):
    """The date of a day, counted from 1984-01-01 on."""
    return (FIRST_DAY + datetime.timedelta(days)).isoformat()


def clock_text(milliseconds):
    """A time of the day; one beyond midnight goes on to count hours."""
    seconds, rest = divmod(milliseconds, 1000)
    return f"{seconds // 3600:02}:{seconds // 60 % 60:02}:{seconds % 60:02}.{rest:03}"


def is_identifier(key):
    """Whether an entry has the COB-ID of a TPDO."""
    return key[1] == 1 and 0x1800 <= key[0] <= 0x19FF


def tells_pdos(key):
    """Whether PDOs are told by an entry: by the COB-IDs and mappings of TPDOs."""
    return is_identifier(key) or 0x1A00 <= key[0] <= 0x1BFF


def identifiers_of(node, values):
    """The identifiers whose PDO may be told by a node with these values, or by none."""
    owned = {value & 0x7FF for key, value in values.items() if is_identifier(key)} if values else set()
    return owned | {base + node for base in PREDEFINED}


def foreign(line):
    """The meaning of what a recording has besides the frames of the network."""
    name = NAMES[line.kind][0]
    return Meaning(OTHER, None, None, name, f"{name}: {line.data.hex(' ').upper()}" if line.data else name)


def same(one, other):
    return one is other or one == other


class Network:
    """The nodes of a project, or of none, with what the trace so far tells of their PDOs.

    manager    the number of the manager, which the controller has too
    is_recorded  whether the trace is a recording: there the controller's heartbeats tell the state that it has
    values     the numbers of each node's entries by which PDOs are told; a node's are never changed, but replaced
    owners     the TPDOs that have each identifier, as node and number
    transfers  the SDO transfer of each node
    touched    the identifiers of which it may have changed what PDOs they are
    first      what is known before the first line

    `of_controller` are the numbers that the controller is configured with, where they are known already.
    """

    def __init__(self, project=None, with_names=False, devices=None, of_controller=None):
        if project and devices is None:
            devices = {name: device.Device(lines, project.version) for name, lines in project.texts.items()}
        self.project, self.manager = project, project.manager[0] if project else 127
        self.names = {node: name for node, (name, _) in project.nodes.items()} if project else {}
        self.devices = {node: devices[eds] for node, (_, eds) in project.nodes.items()} if project else {}
        self.messages = {(each.node, each.tpdo): name for name, each in project.messages.items()} if project else {}
        self.with_names, self.is_recorded = with_names, False
        if project and of_controller is None:
            of_controller = pdo_writes.of_controller(project, lambda: pdo_writes.planned(project, devices))
        self._of_controller = of_controller or {}
        self._beside = receiver_names.of_project(project, devices) if project and with_names else {}
        self.values, self.owners, self.transfers, self.touched = {}, {}, {}, set()
        self._pdos, self._defaults, self._said = {}, {}, {}
        if self.manager in self.names:
            self.power(self.manager)
        self.first = self.state()

    # What the trace has told so far, to be kept and to go on from.

    def state(self):
        """What the trace has told so far; what isn't the same is told by ==."""
        return dict(self.values), dict(self.transfers)

    def restore(self, state):
        """Goes on from what the trace had told there."""
        values = state[0]
        for node in {**self.values, **values}:
            self.replace(node, values.get(node))
        self.transfers = dict(state[1])

    def touch(self, identifiers):
        """What PDOs these are may have changed."""
        self.touched |= identifiers
        for each in identifiers:
            self._pdos.pop(each, None)

    def name(self, node):
        return self.names.get(node) or ("manager" if node == self.manager else f"node {node}")

    def nodes(self, told):
        """The nodes that have a state, by number: those of the project and those that were told of; the manager has none,
        unless it is the controller."""
        return sorted(set(self.names) | told - {self.manager})

    def lanes(self, told):
        """The nodes that have a lane, the manager first: the controller has no other."""
        return [self.manager] + [node for node in self.nodes(told) if node != self.manager]

    def title(self, node):
        """What stands beside the name of a node: its number, and whether it is the manager too; "" of one that isn't known."""
        if node in self.names:
            return f"manager {node}" if node == self.manager else f"node {node}"
        return f"node {node}" if node == self.manager else ""

    def name_text(self, node, key):
        """The name of an entry behind a blank, where names are wanted and it has one."""
        entry = self.devices[node].entries.get(key) if self.with_names and node in self.devices else None
        return f" {entry.name}" if entry and entry.name else ""

    def kind_of(self, node, key):
        """The data type of an entry, 0 where it isn't known or isn't modelled."""
        entry = self.devices[node].entries.get(key) if node in self.devices else None
        return entry.kind if entry and entry.is_modelled else 0

    # What a node's PDOs are.

    def power(self, node):
        """A node boots up: its PDO objects have their defaults."""
        self.replace(node, self.defaults(node))

    def replace(self, node, values):
        """A node has these values in the place of those that it had, or none any more."""
        before = self.values.get(node)
        if same(before, values):
            return
        for key, value in (before or {}).items():
            self.disown(node, key, value)
        if values is None:
            del self.values[node]
        else:
            self.values[node] = values
            for key, value in values.items():
                self.own(node, key, value)
        self.touch(identifiers_of(node, before) | identifiers_of(node, values))

    def defaults(self, node):
        """The numbers that the entries of a node by which PDOs are told have from power-on on: those of the controller are
        what it is configured with."""
        if node not in self._defaults:
            known = self.devices.get(node)
            values = {key: known.default(*key, node) for key in known.entries if tells_pdos(key)} if known else {}
            written = self._of_controller if node == self.manager else {}
            self._defaults[node] = {key: value for key, value in {**values, **written}.items() if value is not None and tells_pdos(key)}
        return self._defaults[node]

    def disown(self, node, key, value):
        if is_identifier(key):
            self.owners.get(value & 0x7FF, set()).discard((node, key[0] - 0x17FF))

    def own(self, node, key, value):
        if is_identifier(key) and not value & 0xA0000000:
            self.owners.setdefault(value & 0x7FF, set()).add((node, key[0] - 0x17FF))

    def write(self, node, key, value):
        """A PDO object of a node has a new value."""
        values = self.values.get(node, {})
        self.replace(node, {**values, key: value} if tells_pdos(key) else values)

    def mapping(self, node, tpdo):
        """The entries and bits that a TPDO maps, None where that isn't known."""
        values, index = self.values.get(node, {}), 0x19FF + tpdo
        count = values.get((index, 0), 0)
        words = [values.get((index, sub)) for sub in range(1, count + 1)] if count <= MOST_MAPPED else []
        if not words or None in words:
            return None
        return [((word >> 16, word >> 8 & 0xFF), word & 0xFF) for word in words]

    # What a frame means.

    def of(self, line):
        """The meaning of a frame or note, the next of the trace."""
        if isinstance(line, Note):
            return Meaning(NOTE, self.manager, line.node, line.what, f"note {self.name(line.node)} {line.what}")
        if isinstance(line, Foreign):
            return foreign(line)
        identifier, data = line.identifier, line.data
        node = identifier & 0x7F
        if identifier == 0 and len(data) == 2:
            return self.command(*data)
        if identifier == 0x80:
            return Meaning(SYNC, self.manager, None, "", f"SYNC {data[0]}" if data else "SYNC")
        if identifier == 0x100 and len(data) == 6 and not self.owners.get(identifier):
            return Meaning(TIME, self.manager, None, "", f"TIME {moment_text(data)}")
        if 0x701 <= identifier <= 0x77F and len(data) == 1:
            return self.heartbeat(node, data[0])
        if 0x581 <= identifier <= 0x67F and node and len(data) == 8:
            return self.answer(node, data) if identifier < 0x600 else self.request(node, data)
        if 0x81 <= identifier <= 0xFF and len(data) == 8 and not self.owners.get(identifier):
            return self.emergency(node, data)
        return self.pdo(identifier).of(data)

    def command(self, service, node):
        to = self.name(node) if node else "all nodes"
        what = SERVICES.get(service, f"command {service}")
        return Meaning(NMT, self.manager, node or None, what, f"{what} {to}")

    def heartbeat(self, node, byte):
        state = STATES.get(byte, f"state {byte}")
        if byte == 0:
            self.power(node)
            return Meaning(HEARTBEAT, node, node, state, f"{self.name(node)} boot-up")
        return Meaning(HEARTBEAT, node, node, state, f"{self.name(node)} heartbeat: {state}")

    def emergency(self, node, data):
        code = int.from_bytes(data[:2], "little")
        what = EMERGENCIES.get(code, "error")
        text = f"{self.name(node)} EMCY {code:04X}h {what}, error register {data[2]:02X}h"
        return Meaning(EMCY, node, node, f"{code:04X}h", text)

    def pdo(self, identifier):
        """The PDO that frames of an identifier are of, as it is now."""
        found = self._pdos.get(identifier)
        if found is None:
            owners = sorted(self.owners.get(identifier, ()))
            found = self._pdos[identifier] = self.owned(owners) if owners else self.predefined(identifier)
        return found

    def owned(self, owners):
        """The PDO of these TPDOs; what it carries is known where it is one alone."""
        subject = " or ".join(self.messages.get(owner, f"{self.name(owner[0])} TPDO {owner[1]}") for owner in owners)
        node, tpdo = owners[0]
        mapping = self.mapping(node, tpdo) if len(owners) == 1 else None
        return Pdo(node, subject, None if mapping is None else tuple(self.part(node, tpdo, key, bits) for key, bits in mapping))

    def predefined(self, identifier):
        """The PDO of an identifier that no TPDO is known to have."""
        node, what = identifier & 0x7F, PREDEFINED.get(identifier & 0x780)
        if not what or node not in self.names and node not in self.values:
            return Pdo(None, "PDO", None)
        return Pdo(node if what[0] == "T" else None, f"{self.name(node)} {what}", None)

    def part(self, node, tpdo, key, bits):
        """The label, bits and data type of what a PDO has of an entry; a name that says nothing has the receivers' beside it."""
        where = f"{key[0]:04X}h" + (f":{key[1]:02X}" if key[1] else "")
        beside = self._beside.get((node, tpdo), {}).get(key)
        return where + self.name_text(node, key) + (f" ({beside})" if beside else ""), bits, self.kind_of(node, key)

    # SDO: the manager's requests, and a node's answers.

    def sdo(self, sender, node, key, what):
        place, name = (device.object_name(key), self.name_text(node, key)) if key else ("", "")
        text, first = f"{place}{name} {what}".strip(), f"{place} {what}".strip() + (f" ({name[1:]})" if name else "")
        return Meaning(SDO, sender, node, place + name, f"{self.name(node)} {text}", first=f"{self.name(node)} {first}")

    def request(self, node, data):
        def said(what):
            return self.sdo(self.manager, node, transfer.key if transfer else None, what)

        byte, transfer = data[0], self.transfers.get(node)
        if byte in (0x2F, 0x2B, 0x27, 0x23, 0x21, 0x40):
            is_short = byte not in (0x21, 0x40)
            transfer = self.transfers[node] = Transfer(key_of(data), data[4:8 - (byte >> 2 & 3)] if is_short else b"", 0)
            if byte == 0x40:
                return said("read")
            if byte == 0x21:
                return said(f":= {int.from_bytes(data[4:], 'little')} bytes in segments")
            return said(f":= {self.value(node, transfer)}")
        if byte == 0x80:
            return self.abort(self.manager, node, data)
        if byte in (0x60, 0x70):
            return said(f"read segment {transfer.segments + 1}" if transfer else "read segment")
        if byte < 0x20 and transfer:
            piece, last = segment_of(data)
            transfer = self.take_segment(node, transfer, piece)
            is_real = last and self.kind_of(node, transfer.key) in REALS
            number = f" ({self.value(node, transfer)})" if is_real else ""
            return said(f"segment {transfer.segments}: {piece.hex(' ').upper()}".strip() + number)
        return said(f"command {byte:02X}h")

    def take_segment(self, node, transfer, piece):
        """A segment came: the transfer is longer."""
        self.transfers[node] = Transfer(transfer.key, transfer.data + piece, transfer.segments + 1)
        return self.transfers[node]

    def answer(self, node, data):
        def said(what):
            return self.sdo(node, node, transfer.key if transfer else None, what)

        byte, transfer = data[0], self.transfers.get(node)
        if byte == 0x80:
            return self.abort(node, node, data)
        if byte in (0x60, 0x4F, 0x4B, 0x47, 0x43, 0x41):
            transfer = transfer or Transfer(key_of(data), b"", 0)
            if byte == 0x60 and not transfer.data:
                return said("ready for segments")
            if byte == 0x60:
                return self.written(node, transfer, "written")
            if byte == 0x41:
                return said(f"= {int.from_bytes(data[4:], 'little')} bytes in segments")
            transfer = transfer._replace(data=data[4:8 - (byte >> 2 & 3)])
            return said(f"= {self.value(node, transfer)}")
        if byte in (0x20, 0x30) and transfer:
            return said(f"segment {transfer.segments} taken")
        if byte < 0x20 and transfer:
            piece, last = segment_of(data)
            transfer = self.take_segment(node, transfer, piece)
            shown = f"segment {transfer.segments}: {piece.hex(' ').upper()}".strip()
            return said(f"= {self.value(node, transfer)}" if last else shown)
        return said(f"answer {byte:02X}h")

    def value(self, node, transfer):
        return device.text_of(transfer.data, self.kind_of(node, transfer.key))

    def written(self, node, transfer, what):
        """The node has taken a value: its PDOs go by it."""
        if 0x1800 <= transfer.key[0] <= 0x1BFF:
            self.write(node, transfer.key, int.from_bytes(transfer.data, "little"))
        return self.sdo(node, node, transfer.key, what)

    def abort(self, sender, node, data):
        code = int.from_bytes(data[4:], "little")
        self.transfers.pop(node, None)
        return self.sdo(sender, node, key_of(data), f"abort {code:08X} {ABORTS.get(code, '')}".strip())
