"""What the objects of a PDO of a node can carry, by its data sheet, and why not (docs/rules/messages.md).

In scripts of versions 1 and 2 each entry that a message needs is written (SentOrTaken); version 3 has rules of its own
(vendor_pdo.py).
"""
from .data_types import type_name
from .device import object_name
from .wiring import COMMUNICATION, OFF, RPDO

UNSIGNED8, UNSIGNED16, UNSIGNED32 = 0x05, 0x06, 0x07
COB_ID, TYPE, INHIBIT, EVENT, START = 1, 2, 3, 5, 6
KINDS = {COB_ID: UNSIGNED32, TYPE: UNSIGNED8, INHIBIT: UNSIGNED16, EVENT: UNSIGNED16, START: UNSIGNED8}
NO_RTR = 1 << 30


class PdoObjects:
    """The objects of one PDO of a node.

    communication, mapping  their indexes
    """

    def __init__(self, device, node, direction, number):
        self.device, self.node, self.receives = device, node, direction == RPDO
        self.communication = COMMUNICATION[direction] + number
        self.mapping = self.communication + 0x200

    # Its entries, each with its data type.

    def parameter(self, sub):
        return (self.communication, sub), KINDS[sub]

    def mapped(self, count):
        """Those of a mapping of so many values: their number first."""
        return [((self.mapping, 0), UNSIGNED8)] + [((self.mapping, sub), UNSIGNED32) for sub in range(1, count + 1)]

    def described(self, key):
        """An entry in words: its place and its name."""
        entry = self.device.entries.get(key)
        return f"{object_name(key)} {entry.name if entry else ''}".rstrip()

    def why_not(self, key, kind):
        """Why an entry isn't one of a data type that can be written, in words, or None."""
        entry = self.device.entries.get(key)
        if not entry:
            return f"{object_name(key)} isn't there"
        if entry.kind != kind:
            return f"{self.described(key)} is {type_name(entry.kind)}, and not {type_name(kind)}"
        return None if entry.is_writable() else f"{self.described(key)} is {entry.access}"

    def takes(self, key, kind):
        """Whether an entry is one of a data type that can be written."""
        return self.why_not(key, kind) is None

    def fits(self, message, identifier, items, dummies=()):
        """Whether it can take a message with these mapping entries, of which those at some sub-indexes are dummies."""
        return self.why_not_taken(message, identifier, items, dummies) is None

    def writes(self, cob_id, parameters, items):
        """What a message writes into it, in order: an entry and its number each."""
        own = self.parameter(COB_ID)[0]
        settings = [((self.communication, sub), number) for sub, number in parameters if self.is_written(sub, number)]
        if not self.is_open():
            return settings
        return [(own, OFF | cob_id), *settings, *(self._map(items) if self.writes_mapping(items) else []), (own, cob_id)]

    def _map(self, items):
        mapped = [((self.mapping, sub), item) for sub, item in enumerate(items, 1)]
        return [((self.mapping, 0), 0), *mapped, ((self.mapping, 0), len(items))]


class SentOrTaken(PdoObjects):
    """Versions 1 and 2: what a message needs is written."""

    def is_open(self):
        return True

    def fixed_identifier(self):
        return None

    def why_not_sent(self, message, items):
        """Why it can't send a message: the entry at fault and words, or None."""
        _, inhibit, event, _ = message.numbers
        given = {INHIBIT: inhibit, EVENT: event, START: message.start}
        needed = [COB_ID, TYPE, *(sub for sub, number in given.items() if number)]
        return self._first_fault([self.parameter(sub) for sub in needed] + self.mapped(len(items)))

    def why_not_taken(self, message, identifier, items, dummies=()):
        """Why it can't take a message, in words, or None."""
        fault = self._first_fault([self.parameter(COB_ID), self.parameter(TYPE)] + self.mapped(len(items)))
        return fault and fault[1]

    def _first_fault(self, needed):
        """The first of these entries that can't be written, and why, or None."""
        for key, kind in needed:
            why = self.why_not(key, kind)
            if why:
                is_there = key in self.device.entries and self.device.entries[key].kind == kind
                return key, why + (", and can't be written" if is_there else "")
        return None

    def is_written(self, sub, number):
        return self.takes(*self.parameter(sub))

    def writes_mapping(self, items):
        return True

    def off_write(self):
        """None: a PDO that no message uses stays as it is."""
        return None
