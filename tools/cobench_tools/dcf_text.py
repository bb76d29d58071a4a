"""The text of a DCF as cobench prints it (docs/rules/dcf_text.md), into which more values are put."""
import re
from typing import Dict, List

from . import ini, tool
from .data_types import BITS, WHOLE
from .device import Device, Key, read_number

VALUE, UPLOAD = "ParameterValue", "UploadFile"
COMMISSIONING, NO_DCF = "devicecomissioning", "the reply to dcf is no DCF"
OF_OBJECT = {"parametername", "objecttype", "subnumber", "compactsubobj", "objflags"}      # keys that no sub-index takes from its object


def number_text(kind: int, number: int) -> str:
    """A number of an unsigned type as cobench prints it."""
    return f"0x{number:0{BITS[kind] // 4}X}"


class DcfText:
    """A DCF, by its sections; each stands once, and there are no comments.

    sheet  the lines of the data sheet that it is made of
    """

    def __init__(self, lines: List[bytes], sheet: List[bytes]) -> None:
        self._sections: Dict[str, List[str]] = {}
        section: List[str] = []
        for line in lines:
            name = ini.header_of(line)
            section = section if name is None else self._sections.setdefault(name, [])
            section.append(tool.shown(line))
        self._of_sheet = set(ini.sections_of(sheet))
        if COMMISSIONING not in self._sections:
            raise tool.Fault(NO_DCF)
        self._read()

    def _read(self) -> None:
        self.device = Device(self.lines(), WHOLE)

    def lines(self) -> List[bytes]:
        """The lines, as bytes."""
        return [line.encode("utf-8", "surrogateescape") for section in self._sections.values() for line in section]

    # Values.

    def set(self, key: Key, text: str) -> None:
        """An entry that is there gets a value."""
        name = self._section_of(key)
        if key[1] and "sub" not in name:
            self._set_compact(name, key[1], text)
        else:
            self._put_last(name, VALUE, text)

    def upload(self, key: Key, name: str) -> None:
        """An entry of DOMAIN, which is there, has the bytes of a file."""
        section = self._section_of(key)
        if key[1] and "sub" not in section:
            self._expand(section)
            section = self._section_of(key)
        self._put_last(section, UPLOAD, name)

    def commission(self, key: str, text: str) -> None:
        """A key of the section that says who the node is."""
        self._put_last(COMMISSIONING, key, text)

    def _section_of(self, key: Key) -> str:
        """The name of the section that describes an entry: its own, or that of its object."""
        if key not in self.device.entries:
            raise tool.Fault(NO_DCF)
        keys = self.device.entries[key].keys
        return next(name for name, section in self.device.sections.items() if section is keys)

    def _put_last(self, name: str, key: str, text: str) -> None:
        """A key with its value becomes the last one of a section."""
        lines = self._sections[name]
        self._sections[name] = [line for line in lines if key_of(line) != key.lower()] + [f"{key}={text}"]

    # Compact objects, whose sub-indexes have no sections of their own.

    def _set_compact(self, name: str, sub: int, text: str) -> None:
        """A compact sub gets a value, in the section of the values of its object."""
        section = f"{name}value"
        if section not in self._sections:
            self._insert(section, [f"[{name.upper()}Value]", "NrOfEntries=0"])
        lines = self._sections[section]
        given = {int(key_of(line)): line for line in lines if is_value(line)}
        given[sub] = f"{sub}={text}"
        others = [line for line in lines if not is_value(line)]
        counted = [counting(line, len(given)) for line in others]
        missing = [] if any(map(is_count, others)) else [f"NrOfEntries={len(given)}"]
        self._sections[section] = counted + [given[each] for each in sorted(given)] + missing

    def _insert(self, name: str, lines: List[str]) -> None:
        """A section of values that is new stands behind those of the data sheet, by its index."""
        behind = next(each for each in self._sections if each == COMMISSIONING or self._is_made(each) and each > name)
        self._insert_before(behind, {name: lines})

    def _is_made(self, name: str) -> bool:
        return bool(re.fullmatch("[0-9a-f]{4}value", name)) and name not in self._of_sheet

    def _insert_before(self, behind: str, sections: Dict[str, List[str]]) -> None:
        made: Dict[str, List[str]] = {}
        for name, lines in self._sections.items():
            made.update(sections if name == behind else {})
            made[name] = lines
        self._sections = made

    def _expand(self, name: str) -> None:
        """The sub-indexes of a compact object get sections of their own: only there a file can be named."""
        count = read_number(self.device.sections[name]["compactsubobj"]) or 0
        own = [line for line in self._sections[name] if key_of(line) not in ("compactsubobj", "subnumber")]
        sections = list(self._sections)
        self._insert_before(sections[sections.index(name) + 1], self._subs_of(name, count))
        self._sections[name] = [*own, f"SubNumber={count + 1}"]
        for gone in (f"{name}name", f"{name}value"):
            self._sections.pop(gone, None)
        self._read()

    def _subs_of(self, name: str, count: int) -> Dict[str, List[str]]:
        """The sections of the sub-indexes of a compact object that have none yet, by their names: each with the keys of the object."""
        keys, names = self.device.sections[name], self.device.sections.get(f"{name}name", ini.Section(0))
        shared = [line for line in self._sections[name][1:] if key_of(line) not in OF_OBJECT]
        title, index = keys.get("parametername", ""), name.upper()
        made = {f"{name}sub0": [f"[{index}sub0]", "ParameterName=Highest sub-index supported", "DataType=0x0005", "AccessType=ro",
                                f"DefaultValue={count}"]}
        for sub in range(1, count + 1):
            of_sub = names.get(str(sub)) or f"{title} {sub}".strip()
            made[f"{name}sub{sub:x}"] = [f"[{index}sub{sub:X}]", f"ParameterName={of_sub}", *shared]
        compact = (sub for sub in range(count + 1) if self.device.entries[int(name, 16), sub].keys is keys)
        return {f"{name}sub{sub:x}": made[f"{name}sub{sub:x}"] for sub in compact}


def key_of(line: str) -> str:
    """The key of a line in lower case, "" of a header."""
    pair = ini.pair_in(line.encode("utf-8", "surrogateescape"))
    return pair[0] if pair else ""


def is_value(line: str) -> bool:
    """Whether a line gives a compact sub its value."""
    return bool(re.fullmatch("[0-9]+", key_of(line)))


def is_count(line: str) -> bool:
    """Whether a line says how many values its section has."""
    return key_of(line) == "nrofentries"


def counting(line: str, count: int) -> str:
    """A line, with that number where it says how many values there are."""
    return f"{line.partition('=')[0]}={count}" if is_count(line) else line
