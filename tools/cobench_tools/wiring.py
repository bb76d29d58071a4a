"""The PDOs of a network as its nodes have them once they are configured: who sends what to whom.

A node's values are the defaults of its data sheet, and over them the writes of its concise DCF. Which PDOs
work with these values is said in docs/rules/pdos.md; TPDOs and RPDOs with one identifier belong together.
"""
import bisect
import functools

from . import concise, tool, values
from .data_types import BITS
from .device import Device

TPDO, RPDO = "TPDO", "RPDO"
COMMUNICATION = {TPDO: 0x17FF, RPDO: 0x13FF}
MOST_PDOS, MOST_BITS = 512, 64
OFF, EXTENDED = 1 << 31, 1 << 29
RESTRICTED = (0x000, 0x07F), (0x101, 0x180), (0x581, 0x5FF), (0x601, 0x67F), (0x6E0, 0x6FF), (0x701, 0x7FF)


def is_restricted(identifier):
    """Whether no PDO may have an identifier."""
    return any(low <= identifier <= high for low, high in RESTRICTED)


def pdo_numbers(device, direction):
    """The numbers of the PDOs of a direction that a data sheet has."""
    first, indexes = COMMUNICATION[direction], device.indexes
    there = indexes[bisect.bisect_right(indexes, first):bisect.bisect_right(indexes, first + MOST_PDOS)]
    return [index - first for index in there if 1 in device.subs[index]]


def pdo_of(index):
    """The direction and number of the PDO whose communication or mapping object that is."""
    direction = TPDO if index > COMMUNICATION[TPDO] else RPDO
    return direction, (index - COMMUNICATION[direction] - 1) % MOST_PDOS + 1


class Part:
    """What a PDO carries at some of its bits: an entry, or a dummy's index, for which there is no entry."""

    def __init__(self, start, bits, key, entry):
        self.start, self.bits, self.key, self.entry = start, bits, key, entry

    @property
    def end(self):
        return self.start + self.bits

    def is_dummy(self):
        return self.entry is None


class Pdo:
    """A PDO that is on.

    node, direction, number  whose it is, TPDO or RPDO, and its number from 1 on
    identifier               its COB-ID without the upper bits
    kind                     its transmission type, None for none
    inhibit, event, start    inhibit time in units of 100 us, event time in ms, SYNC start value; 0 for none
    items                    its mapping entries as they stand
    parts                    what it carries, by bits; nothing where it can't carry what it maps
    """

    def __init__(self, node, direction, number, identifier):
        self.node, self.direction, self.number, self.identifier = node, direction, number, identifier
        self.kind, self.items, self.parts = None, [], []
        self.inhibit = self.event = self.start = 0

    @property
    def bits(self):
        return self.parts[-1].end if self.parts else 0

    @property
    def size(self):
        """Its bytes."""
        return (self.bits + 7) // 8

    def shown(self):
        """All by which it is another than one before, over one data sheet."""
        return self.direction, self.number, self.identifier, self.kind, self.inhibit, self.event, self.start, self.items

    def works(self):
        """Whether it is sent or taken at all."""
        return 0 < self.bits <= MOST_BITS and not is_restricted(self.identifier)


class Node:
    """A node with the values of its entries.

    device   its data sheet
    written  the bytes of each entry that has another value than its default
    """

    def __init__(self, number, device, written):
        self.number, self.device, self.written = number, device, written
        self._pdos = {}

    def number_at(self, index, sub, kind):
        """The number of an entry that is there with exactly that type, else None."""
        entry = self.device.entries.get((index, sub))
        if not entry or entry.kind != kind:
            return None
        data = self.written.get((index, sub))
        return int.from_bytes(values.default_of(entry, self.number) if data is None else data, "little")

    @functools.cached_property
    def heartbeat(self):
        """Its heartbeat time in milliseconds, None or 0 for none."""
        return self.number_at(0x1017, 0, 0x06)

    @functools.cached_property
    def watched(self):
        """Whose heartbeats it watches, and for how many milliseconds: node and time of each. It hears none of its own."""
        values = [self.number_at(0x1016, sub, 0x07) or 0 for sub in self.device.subs.get(0x1016, ()) if sub]
        return [(value >> 16 & 0xFF, value & 0xFFFF) for value in values
                if value & 0xFFFF and value >> 16 & 0xFF not in (0, self.number)]

    def pdos(self, direction):
        """The PDOs of a direction that work, by number."""
        if direction not in self._pdos:
            found = [self.pdo(direction, number) for number in pdo_numbers(self.device, direction)]
            self._pdos[direction] = [pdo for pdo in found if pdo and pdo.works()]
        return self._pdos[direction]

    def pdo(self, direction, number):
        """The PDO of a number, or None where it is off."""
        index = COMMUNICATION[direction] + number
        cob = self.number_at(index, 1, 0x07)
        if cob is None or cob & (OFF | EXTENDED):
            return None
        pdo = Pdo(self.number, direction, number, cob & 0x7FF)
        pdo.kind, pdo.inhibit = self.number_at(index, 2, 0x05), self.number_at(index, 3, 0x06) or 0
        pdo.event, pdo.start = self.number_at(index, 5, 0x06) or 0, self.number_at(index, 6, 0x05) or 0
        count = self.number_at(index + 0x200, 0, 0x05) or 0
        if count <= MOST_BITS:
            pdo.items = [self.number_at(index + 0x200, sub, 0x07) or 0 for sub in range(1, count + 1)]
        pdo.parts = self._parts(direction, pdo.items)
        return pdo

    def _parts(self, direction, items):
        """What mapping entries name; nothing where one names what the direction can't carry."""
        parts, start = [], 0
        for each in items:
            part = self._part(direction, start, each)
            if part is None:
                return []
            parts.append(part)
            start = part.end
        return parts

    def _part(self, direction, start, item):
        """What a mapping entry names, None where a PDO of the direction can't carry it."""
        key, bits = key_and_bits(item)
        entry = self.device.entries.get(key)
        if entry and (entry.is_sent() if direction == TPDO else entry.is_taken()):
            return Part(start, bits, key, entry) if bits == entry.bits else None
        if direction == RPDO and key[1] == 0 and self.device.allows_dummy(key[0]) and bits == BITS[key[0]]:
            return Part(start, bits, key, None)
        return None


def key_and_bits(item):
    """The entry that a mapping entry names, and how many bits."""
    return (item >> 16, item >> 8 & 0xFF), item & 0xFF


class Wiring:
    """The network of a session that was asked `diag` and `cdcf`: its nodes, its TPDOs, and the RPDOs that take each.

    project  what the script makes
    nodes    the nodes by number
    tpdos    all TPDOs that work, by identifier, node and number
    faults   the codes of the errors of each message that has some: it is in no PDO

    `nodes` are the nodes by number, where they are known already.
    """

    QUERIES = "diag", "cdcf"

    def __init__(self, answered, nodes=None):
        self.project, self.nodes = answered.project, nodes or nodes_of(answered)
        self.faults = faults_of_messages(answered.lines("diag"))
        self.tpdos = sorted((pdo for node in self.nodes.values() for pdo in node.pdos(TPDO)),
                            key=lambda pdo: (pdo.identifier, pdo.node, pdo.number))
        self._messages = {(message.node, message.tpdo): name for name, message in self.project.messages.items()
                          if name not in self.faults}
        self._rpdos = {}
        for number in sorted(self.nodes):
            for pdo in self.nodes[number].pdos(RPDO):
                self._rpdos.setdefault(pdo.identifier, []).append(pdo)

    def name(self, node):
        """The name of a node or the manager."""
        return self.project.nodes[node][0] if node in self.project.nodes else "manager"

    def message_of(self, tpdo):
        """The name of the message that a TPDO sends, None where the device has it by its defaults."""
        return self._messages.get((tpdo.node, tpdo.number))

    def receivers(self, tpdo):
        """The RPDOs that take a TPDO, by node and number."""
        return [pdo for pdo in self._rpdos.get(tpdo.identifier, []) if pdo.node != tpdo.node]

    def targets(self, tpdo, part):
        """What takes bits of a part of a TPDO: the RPDOs, and for each its part."""
        return [(pdo, other) for pdo in self.receivers(tpdo) for other in pdo.parts
                if not other.is_dummy() and other.start < part.end and part.start < other.end]


def nodes_of(answered):
    """The nodes at the end of a session, by number."""
    devices = {name: Device(lines, answered.project.version) for name, lines in answered.project.texts.items()}
    return {number: Node(number, devices[eds], concise.values_of(answered.lines("cdcf", number)))
            for number, (_, eds) in answered.project.nodes.items()}


def faults_of_messages(diagnostics):
    """The codes E05 to E14 of each message that has some, of the lines of `diag`."""
    faults = {}
    for line in diagnostics:
        code, subject, *words = tool.shown(line).split(" ")
        if subject == "message" and "E05" <= code <= "E14":
            faults.setdefault(words[0], []).append(code)
    return faults
