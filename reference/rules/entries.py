"""The device that the text of an EDS describes: docs/rules/entries.md.

Which types are modelled depends on whether the script has version 3; nothing else of a text does."""
import re
from typing import Dict, NamedTuple, Optional
from .faults import LIMIT, refuse_unless
from .ini_text import Content, Section
from .values import DOMAIN, UNSIGNED8, UNSIGNED_BITS, fixed_length, is_integer, number, number_in, type_of_code, value
from .write_check import Entry, Place, Shape

MOST_ENTRIES = 4_096
SUB_SECTION = re.compile(rb"([0-9a-f]{4})sub([0-9a-f]{1,2})")
OBJECT_SECTION = re.compile(rb"[0-9a-f]{4}")
ACCESSES = ("ro", "wo", "rw", "rwr", "rww", "const")
VAR, ARRAY, RECORD, DOMAIN_OBJECT = 7, 8, 9, 2
IDENTITY = ((0x1000, 0), (0x1018, 1), (0x1018, 2), (0x1018, 3), (0x1018, 4))

class Described(NamedTuple):
    """What the text says of an entry, whatever the node's number and the version are."""
    code: Optional[int]        # of its type
    access: str
    has_mapping: bool
    default: bytes
    low: bytes
    high: bytes
    value: bytes               # its ParameterValue, or what [xxxxValue] has for a compact sub
    section: bytes             # the name, in lower case, of the section that it is read from
    is_compact: bool

def number_at_key(section, key):
    """The number that stands at a key; None also where the key isn't there."""
    return number(section.value_at(key) or b"")

def code_of(section):
    is_domain = section.value_at(b"DataType") is None and number_at_key(section, b"ObjectType") == DOMAIN_OBJECT
    return DOMAIN if is_domain else number_at_key(section, b"DataType")

def description_of(section, listed=None, is_compact=False):
    """listed: the value of a sub of a compact object."""
    access = (section.value_at(b"AccessType") or b"").lower().decode("latin-1")
    has_mapping = bool(number_at_key(section, b"PDOMapping"))
    default, low, high = (section.value_at(key) or b"" for key in (b"DefaultValue", b"LowLimit", b"HighLimit"))
    parameter_value = listed if is_compact else section.value_at(b"ParameterValue")
    return Described(code_of(section), access if access in ACCESSES else "rw", has_mapping, default, low, high,
                     parameter_value or b"", section.name.lower(), is_compact)

def entries_of_subs(content):
    """The first rule: [xxxxsubN]."""
    for name, section in content.sections.items():
        match = SUB_SECTION.fullmatch(name)
        if match:
            yield (int(match[1], 16), int(match[2], 16)), description_of(section)

def object_sections(content):
    """Each [xxxx] with its index."""
    return [(int(name, 16), section) for name, section in content.sections.items() if OBJECT_SECTION.fullmatch(name)]

def entries_of_objects(content):
    """The second rule: [xxxx] with the ObjectType of one entry, or with none."""
    for index, section in object_sections(content):
        if section.value_at(b"ObjectType") is None or number_at_key(section, b"ObjectType") in (VAR, DOMAIN_OBJECT):
            yield (index, 0), description_of(section)

def compact_count(section):
    """The n of a compact object, else None."""
    count = number_at_key(section, b"CompactSubObj")
    is_compact = number_at_key(section, b"ObjectType") in (ARRAY, RECORD) and count is not None and 1 <= count <= 254
    return count if is_compact else None

def decimal_keys(section):
    """Each key of decimal digits alone with its number."""
    return [(int(key), key) for key, _ in section.pairs.values() if key.isdigit()]

def listed_values(content, section):
    """What [xxxxValue] of a compact object has, by sub; the first spelling of a number counts."""
    values = content.section(section.name + b"Value") or Section(b"")
    return {sub: values.value_at(key) for sub, key in reversed(decimal_keys(values))}

def entries_of_compact_objects(content):
    """The third rule: the subs 0 to n of a compact object."""
    for index, section in object_sections(content):
        count = compact_count(section)
        if count is not None:
            listed = listed_values(content, section)
            yield (index, 0), Described(UNSIGNED8, "ro", False, b"%d" % count, b"", b"", listed.get(0, b""),
                                        section.name.lower(), True)
            for sub in range(1, count + 1):
                yield (index, sub), description_of(section, listed.get(sub), True)

class DataSheet:
    """The device of a text's content, with the types of version 3 or without them."""
    def __init__(self, content: Content, has_all_types: bool) -> None:
        self.content, self.has_all_types = content, has_all_types
        self.entries: Dict[Place, Described] = {}
        for rule in (entries_of_subs, entries_of_objects, entries_of_compact_objects):
            for place, described in rule(content):
                self.entries.setdefault(place, described)
        refuse_unless(len(self.entries) <= MOST_ENTRIES, LIMIT)
        self.types = {place: type_of_code(described.code, has_all_types) for place, described in self.entries.items()}
        usage = content.section(b"DummyUsage") or Section(b"")
        self.dummies = frozenset(kind for kind in range(1, 8) if number_at_key(usage, b"Dummy000%d" % kind))
        self.shapes: Dict[int, Shape] = {}                       # by node, once they are asked for
        self.dictionaries: Dict[int, Dict[Place, bytes]] = {}

    def shape(self, node):
        if node not in self.shapes:
            self.shapes[node] = Shape({place: self.entry(place, node) for place in self.entries}, self.dummies)
        return self.shapes[node]

    def entry(self, place, node):
        kind, described = self.types[place], self.entries[place]
        limits = (value(kind, text, node) if is_integer(kind) else None for text in (described.low, described.high))
        low, high = (None if data is None else number_in(kind, data) for data in limits)
        return Entry(kind, described.access, low, high, described.has_mapping)

    def default(self, place, node):
        """The value that the DefaultValue spells; 0 or the empty string where it is empty or spells none."""
        kind, text = self.types[place], self.entries[place].default
        data = value(kind, text, node) if text else None
        return bytes(fixed_length(kind) or 0) if data is None else data

    def defaults(self, node):
        """The value of each entry of a modelled type at power-on. Who changes values takes a copy."""
        if node not in self.dictionaries:
            kinds = self.types.items()
            self.dictionaries[node] = {place: self.default(place, node) for place, kind in kinds if kind is not None}
        return self.dictionaries[node]

    def identity(self, node):
        """The five numbers that the boot compares: defaults of an unsigned type of at most four bytes, else 0."""
        values = self.defaults(node)
        return [int.from_bytes(values[place], "little") if UNSIGNED_BITS.get(self.types.get(place), 64) <= 32 else 0
                for place in IDENTITY]
