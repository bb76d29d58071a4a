"""What a data sheet says of a device's entries: names, types, access, defaults, limits, values (docs/rules/entries.md)."""
import functools
import re
from typing import Dict, Iterable, List, Optional, Tuple

from . import ini, reals, safe_text, tool
from .data_types import BITS, BOOLEAN, NUMBERS, REALS, SIGNED, UNSIGNED, UNSIGNED8, VISIBLE_STRING, is_modelled

VAR, DOMAIN, ARRAY, RECORD = 7, 2, 8, 9
LEAST, GREATEST = -(1 << 63), (1 << 64) - 1
MOST_DIGITS = 22                     # so many octal digits has the greatest number
Key = Tuple[int, int]                # index and sub-index
ACCESSES = ("ro", "wo", "rw", "rwr", "rww", "const")


def read_number(text: str) -> Optional[int]:
    """A number of an EDS, else None: `0x` and hexadecimal, `0` and octal, or decimal digits (docs/rules/values.md)."""
    found = re.fullmatch(r"(-?)(?:0[xX]([0-9A-Fa-f]+)|(0[0-7]+)|([0-9]+))", text)
    if not found:
        return None
    sign, *spellings = found.groups()
    digits, base = next((digits.lstrip("0") or "0", base) for digits, base in zip(spellings, (16, 8, 10)) if digits)
    number = int(digits, base) if len(digits) <= MOST_DIGITS else GREATEST + 1
    return in_range(-number if sign else number)


def in_range(number: int) -> Optional[int]:
    """A number that lies where those of data sheets do, else None."""
    return number if LEAST <= number <= GREATEST else None


def read_formula(text: str, node: int) -> Optional[int]:
    """A number, `$NODEID`, or the sum of both at a node, else None."""
    found = re.fullmatch(r"(?:([0-9][0-9A-Fa-fxX]*)[ \t]*\+[ \t]*)?\$nodeid(?:[ \t]*\+[ \t]*([0-9][0-9A-Fa-fxX]*))?",
                         text, re.IGNORECASE)
    if not found:
        return read_number(text)
    before, behind = found.groups()
    if before and behind:
        return None
    number = read_number(before or behind or "0")
    return None if number is None else in_range(number + node)


def object_name(key: Key) -> str:
    """How an entry is named by its index and sub-index."""
    return f"{key[0]:04X}h:{key[1]:02X}"


class Entry:
    """One entry of a data sheet, as scripts of a version have it.

    name, kind   its name, and the number of its data type, 0 for none
    default      its default as text
    access       ro, wo, rw, rwr, rww or const
    low, high    its limits as texts, "" for none
    mappable     whether PDOs can carry it, by its PDOMapping
    value, line  its ParameterValue as text, "" for none, and the line that has it
    keys         the section that describes it
    """

    def __init__(self, name: str, keys: ini.Section, version: int) -> None:
        access = keys.get("accesstype", "").lower()
        self.keys, self.version = keys, version
        self.name, self.kind, self.default = name, kind_of(keys), keys.get("defaultvalue", "")
        self.access = access if access in ACCESSES else "rw"
        self.low, self.high = keys.get("lowlimit", ""), keys.get("highlimit", "")
        self.mappable = bool(read_number(keys.get("pdomapping", "0")))
        self.value, self.line = keys.get("parametervalue", ""), keys.lines.get("parametervalue", keys.line)

    def line_of(self, key: str) -> int:
        """The line of the data sheet that has a key of its section, or the section."""
        return self.keys.lines.get(key, self.keys.line)

    @property
    def is_modelled(self) -> bool:
        """Whether cobench has values of its data type."""
        return is_modelled(self.kind, self.version)

    @property
    def bits(self) -> Optional[int]:
        """The bits of each of its values, None where they differ, or where cobench has none of its data type."""
        return BITS.get(self.kind) if self.is_modelled else None

    def is_of_identity(self) -> bool:
        """Whether the boot compares it, where it says who the device is: an unsigned number of at most four bytes."""
        return self.is_modelled and UNSIGNED.get(self.kind, 64) <= 32

    def is_writable(self) -> bool:
        return self.access not in ("ro", "const")

    def is_sent(self) -> bool:
        """Whether a TPDO can carry it."""
        return self.mappable and self.bits is not None and self.access in ("ro", "rw", "rwr", "const")

    def is_taken(self) -> bool:
        """Whether an RPDO can carry it."""
        return self.mappable and self.bits is not None and self.access in ("wo", "rw", "rww")


def kind_of(keys: ini.Section) -> int:
    """The data type that a section gives, 0 for none."""
    missing = "15" if read_number(keys.get("objecttype", "7")) == DOMAIN else "0"
    return read_number(keys.get("datatype", missing)) or 0


class Device:
    """The entries of a data sheet by index and sub-index, and its sections, as scripts of a version have them."""

    def __init__(self, lines: Iterable[bytes], version: int) -> None:
        self.sections, self.version = ini.sections_of(lines), version
        self.entries: Dict[Key, Entry] = {}
        for section in self.sections:
            found = re.fullmatch(r"([0-9a-f]{4})sub([0-9a-f]{1,2})", section)
            if found:
                key = int(found.group(1), 16), int(found.group(2), 16)
                self.entries.setdefault(key, self._entry(section, self._name(found.group(1))))
        for section in self.sections:
            if re.fullmatch(r"[0-9a-f]{4}", section):
                self._take_object(section)

    @functools.cached_property
    def subs(self) -> Dict[int, List[int]]:
        """The sub-indices of each object that it has entries of, by its index."""
        found: Dict[int, List[int]] = {}
        for index, sub in sorted(self.entries):
            found.setdefault(index, []).append(sub)
        return found

    @functools.cached_property
    def indexes(self) -> List[int]:
        """The indexes of its objects, in their order."""
        return list(self.subs)

    def _take_object(self, section: str) -> None:
        keys, index = self.sections[section], int(section, 16)
        kind = read_number(keys.get("objecttype", "7"))
        count = read_number(keys.get("compactsubobj", "0"))
        if kind in (VAR, DOMAIN):
            self.entries.setdefault((index, 0), self._entry(section, None))
        elif kind in (ARRAY, RECORD) and count and 1 <= count <= 254:
            self._take_compact(section, count)

    def _take_compact(self, section: str, count: int) -> None:
        """The compact subs of an object: sub 0 is their number."""
        index, values = int(section, 16), self._compact_values(section)
        for sub in range(count + 1):
            if (index, sub) not in self.entries:
                entry = self._entry(section, None)
                entry.value, entry.line = values.get(sub, ("", self.sections[section].line))
                self.entries[index, sub] = entry
                if sub == 0:
                    entry.kind, entry.default, entry.access = UNSIGNED8, str(count), "ro"
                    entry.low, entry.high, entry.mappable = "", "", False
                else:
                    name = self._section(section + "name").get(str(sub))
                    entry.name = safe_text.readable(name) if name else f"{entry.name} {sub}".strip()

    def _compact_values(self, section: str) -> Dict[int, Tuple[str, int]]:
        """The values that [xxxxValue] gives to compact subs, with their lines; the first key of a sub counts."""
        keys, values = self._section(section + "value"), {}  # type: ini.Section, Dict[int, Tuple[str, int]]
        for key, value in keys.items():
            sub = key.lstrip("0")
            if re.fullmatch("[0-9]+", key) and len(sub) <= 3:
                values.setdefault(int(sub or "0"), (value, keys.lines[key]))
        return values

    def _section(self, name: str) -> ini.Section:
        """A section, which is empty where there is none."""
        return self.sections.get(name) or ini.Section(0)

    def _name(self, section: str) -> str:
        return safe_text.readable(self._section(section).get("parametername", ""))

    def _entry(self, section: str, record: Optional[str]) -> Entry:
        return Entry(": ".join(each for each in (record, self._name(section)) if each), self.sections[section],
                     self.version)

    def default(self, index: int, sub: int, node: int) -> Optional[int]:
        """The number that an entry has at a node from power-on on, else None."""
        entry = self.entries.get((index, sub))
        return read_formula(entry.default, node) or 0 if entry and entry.is_modelled and entry.kind in NUMBERS else None

    def allows_dummy(self, kind: int) -> bool:
        """Whether RPDOs can skip bits by a dummy of that data type."""
        return 1 <= kind <= 7 and bool(read_number(self._section("dummyusage").get(f"dummy000{kind}", "")))


def text_of(data: bytes, kind: int) -> str:
    """Bytes as a value of a data type: signed decimal, hexadecimal of the type's width with an h, a REAL, or a text."""
    if kind == VISIBLE_STRING:
        return '"' + safe_text.readable(tool.shown(data)) + '"'
    number = int.from_bytes(data, "little")
    if kind == BOOLEAN:
        return str(number & 1)
    if kind in SIGNED:
        return str(int.from_bytes(data, "little", signed=True))
    if 8 * len(data) == REALS.get(kind):
        return reals.text_of(kind, data)
    return f"{number:0{2 * len(data)}X}h" if 0 < len(data) <= 8 else data.hex(" ").upper()


def number_at(data: bytes, start: int, bits: int, kind: int) -> int:
    """The bits of a frame from a position on, as a number of a data type."""
    number = int.from_bytes(data, "little") >> start & (1 << bits) - 1
    return number - (1 << bits) if kind in SIGNED and number >> bits - 1 else number


def decimal_at(data: bytes, start: int, bits: int, kind: int) -> str:
    """The bits of a frame from a position on, as a decimal number of a data type."""
    is_real = bits == REALS.get(kind)
    return value_at(data, start, bits, kind) if is_real else str(number_at(data, start, bits, kind))


def value_at(data: bytes, start: int, bits: int, kind: int) -> str:
    """The bits of a frame from a position on, as the text of a value of a data type."""
    count, kind = (bits + 7) // 8, kind if bits == REALS.get(kind, bits) else 0
    return text_of((number_at(data, start, bits, kind) & (1 << 8 * count) - 1).to_bytes(count, "little"), kind)
