"""Entries, what a device answers to a write or a read, and how PDOs carry values: docs/rules/write_check.md.

Each check gives the abort code of the first line that refuses, or None. In version 3 a REAL is mapped as an integer
is, and its limits aren't asked."""
from dataclasses import dataclass
from typing import Dict, FrozenSet, NamedTuple, Optional, Tuple
from .values import BOOLEAN, LONGEST_VALUE, UNSIGNED8, UNSIGNED32, fixed_length, number_in, width_bits

UNSUPPORTED_ACCESS, WRITE_ONLY, READ_ONLY = 0x06010000, 0x06010001, 0x06010002
NO_OBJECT, NO_SUB_INDEX = 0x06020000, 0x06090011
CANNOT_BE_MAPPED, PDO_LENGTH_EXCEEDED = 0x06040041, 0x06040042
LENGTH_DOES_NOT_MATCH, LENGTH_TOO_HIGH = 0x06070010, 0x06070012
INVALID_VALUE, VALUE_TOO_HIGH, VALUE_TOO_LOW = 0x06090030, 0x06090031, 0x06090032
OFF, NO_RTR, EXTENDED, IDENTIFIER = 1 << 31, 1 << 30, 1 << 29, 0x7FF        # bits of a COB-ID
RESTRICTED = ((0x000, 0x07F), (0x101, 0x180), (0x581, 0x5FF), (0x601, 0x67F), (0x6E0, 0x6FF), (0x701, 0x7FF))
RPDO_OBJECTS, TPDO_OBJECTS = range(0x1400, 0x1600), range(0x1800, 0x1A00)
COMMUNICATION_OBJECTS = {*RPDO_OBJECTS, *TPDO_OBJECTS}                      # the mapping object lies 200h above
OBJECTS_OF_PDOS = range(0x1400, 0x1C00)
SENDABLE, RECEIVABLE = ("ro", "rw", "rwr", "const"), ("wo", "rw", "rww")

Place = Tuple[int, int]        # index and sub-index

class Entry(NamedTuple):
    type: Optional[int]        # None where it isn't modelled
    access: str                # ro, wo, rw, rwr, rww or const
    low: Optional[int]         # of an integer alone
    high: Optional[int]
    has_mapping: bool          # its PDOMapping is a number other than 0

    def is_mappable(self, receives):
        accesses = RECEIVABLE if receives else SENDABLE
        return self.has_mapping and width_bits(self.type) is not None and self.access in accesses

    def is_writable(self):
        return self.type is not None and self.access not in ("ro", "const")

    def value_check(self, data):
        number = number_in(self.type, data)
        if self.type == BOOLEAN and number > 1:
            return INVALID_VALUE
        if self.low is not None and number < self.low:
            return VALUE_TOO_LOW
        return VALUE_TOO_HIGH if self.high is not None and number > self.high else None

@dataclass
class Shape:
    """The entries of a device, and the types of which it allows dummies."""
    entries: Dict[Place, Entry]
    dummies: FrozenSet[int]

    def __post_init__(self):
        self.indices = {index for index, _ in self.entries}
        self.types = {place: entry.type for place, entry in self.entries.items()}

    def entry(self, index, sub):
        return self.entries.get((index, sub))

    def has_type(self, index, sub, kind):
        """The entry is there, and of exactly this type."""
        return self.types.get((index, sub)) == kind

    def access_check(self, index, sub):
        """What needs no value."""
        entry = self.entry(index, sub)
        if entry is None:
            return NO_SUB_INDEX if index in self.indices else NO_OBJECT
        if entry.type is None:
            return UNSUPPORTED_ACCESS
        return None if entry.is_writable() else READ_ONLY

    def length_check(self, index, sub, length):
        """What needs the value's length alone."""
        if fixed_length(self.entry(index, sub).type) not in (None, length):
            return LENGTH_DOES_NOT_MATCH
        return LENGTH_TOO_HIGH if length > LONGEST_VALUE else None

    def read_check(self, index, sub):
        entry = self.entry(index, sub)
        if entry is None or entry.type is None:
            return self.access_check(index, sub)
        return WRITE_ONLY if entry.access == "wo" else None

    def mapped_width(self, item, receives):
        """The bits of what a mapping entry names, where a PDO of that direction can map it."""
        index, sub = mapped_place(item)
        entry = self.entry(index, sub)
        if entry is not None and entry.is_mappable(receives):
            return width_bits(entry.type)
        return width_bits(index) if receives and sub == 0 and index in self.dummies else None

class Dictionary:
    """The entries of a device, and their values: bytes by index and sub-index, of each entry of a modelled type."""
    def __init__(self, shape, values):
        self.shape, self.values = shape, values

    def number_at(self, index, sub, kind):
        """The number of an entry that is there with that type, else None."""
        return number_in(kind, self.values[index, sub]) if self.shape.has_type(index, sub, kind) else None

    def write_check(self, index, sub, data):
        return (self.shape.access_check(index, sub) or self.shape.length_check(index, sub, len(data))
                or self.shape.entry(index, sub).value_check(data) or self.cob_id_check(index, sub, data)
                or self.mapping_object_check(index, sub, data))

    def cob_id_check(self, index, sub, data):
        """A PDO is turned off before its frames change, and turned on with no restricted identifier."""
        if sub != 1 or index not in COMMUNICATION_OBJECTS or not self.shape.has_type(index, 1, UNSIGNED32):
            return None
        old, new = self.number_at(index, 1, UNSIGNED32), number_in(UNSIGNED32, data)
        changes_frames = not old & OFF and (old ^ new) & (EXTENDED | EXTENDED - 1)
        return INVALID_VALUE if not new & OFF and (changes_frames or is_restricted(new & IDENTIFIER)) else None

    def mapping_object_check(self, index, sub, data):
        """A mapping changes while its PDO is off and, from sub-index 1 on, its count 0."""
        if index - 0x200 not in COMMUNICATION_OBJECTS:
            return None
        cob_id = self.number_at(index - 0x200, 1, UNSIGNED32)
        if cob_id is not None and not cob_id & OFF or sub >= 1 and self.number_at(index, 0, UNSIGNED8):
            return UNSUPPORTED_ACCESS
        return self.mapping_check(index, data[0]) if sub == 0 and self.shape.has_type(index, 0, UNSIGNED8) else None

    def mapping_check(self, index, count):
        """Of a mapping object with that count."""
        if count > 64:
            return PDO_LENGTH_EXCEEDED
        receives = index - 0x200 in RPDO_OBJECTS
        items = [self.number_at(index, sub, UNSIGNED32) for sub in range(1, count + 1)]
        if any(item is None or self.shape.mapped_width(item, receives) != item & 0xFF for item in items):
            return CANNOT_BE_MAPPED
        return PDO_LENGTH_EXCEEDED if sum(item & 0xFF for item in items) > 64 else None

    def payload_of(self, mapping):
        """The frame of the mapped values: position p is bit p mod 8 of byte p div 8."""
        bits = 0
        for item in reversed(mapping):
            data, length = self.values.get(mapped_place(item), b""), item & 0xFF
            bits = bits << length | int.from_bytes(data, "little") & (1 << length) - 1
        return bits.to_bytes(bytes_begun(mapping), "little")

    def takes(self, place, data):
        """An RPDO writes this value of a mapped entry; of a dummy, and of what the check refuses, it writes none."""
        entry = self.shape.entry(*place)
        return entry is not None and entry.is_mappable(True) and self.write_check(*place, data) is None

def is_restricted(identifier):
    return any(low <= identifier <= high for low, high in RESTRICTED)

def mapped_place(item):
    """The entry that a mapping entry names."""
    return item >> 16, item >> 8 & 0xFF

def bytes_begun(mapping):
    return (sum(item & 0xFF for item in mapping) + 7) // 8

def pieces_of_payload(mapping, data):
    """Each mapped entry with its bits, as a value of as many bytes as these begin."""
    bits = int.from_bytes(data, "little")
    for item in mapping:
        length = item & 0xFF
        yield mapped_place(item), (bits & (1 << length) - 1).to_bytes((length + 7) // 8, "little")
        bits >>= length
