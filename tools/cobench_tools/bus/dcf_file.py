"""The DCF of a node: its data sheet with the values that a device holds, and who it is (CiA 306)."""
from typing import Dict, Iterator, List, Optional, Tuple

from .. import ini
from ..device import ARRAY, RECORD, Device, Entry, read_number
from ..node_file import COMMISSIONING, VALUES
from .transfer import Key


def is_compact(entry: Entry) -> bool:
    """Whether an entry is one of several that a section describes together."""
    kind, count = (read_number(entry.keys.get(*key)) for key in (("objecttype", "7"), ("compactsubobj", "0")))
    return kind in (ARRAY, RECORD) and bool(count)


class DcfFile:
    """Makes the lines of a DCF.

    lines   those of the data sheet
    device  its entries
    single   the texts of values by the line of the header of their section
    compact  those of compact subs, by index and sub-index
    """

    def __init__(self, lines: List[bytes], device: Device, texts: Dict[Key, str]) -> None:
        self.lines, self.device = lines, device
        self.single: Dict[int, str] = {}
        self.compact: Dict[int, Dict[int, str]] = {}
        for (index, sub), text in sorted(texts.items()):
            entry = device.entries[index, sub]
            if is_compact(entry):
                self.compact.setdefault(index, {})[sub] = text
            else:
                self.single[entry.keys.line] = text

    def made(self, title: str, number: int, name: str, bitrate: Optional[int]) -> List[bytes]:
        """The lines, behind one with this title; who the node is stands last."""
        about = [f"NodeID={number}", f"NodeName={name}"] + ([f"Baudrate={bitrate}"] if bitrate else [])
        found = [b"; " + title.encode("utf-8", "surrogateescape")]
        for number_of_header, section in self._sections():
            found += self._with_value(number_of_header, section)
        for index, texts in self.compact.items():
            values = [f"{sub}={text}" for sub, text in texts.items()]
            found += encoded(["", f"[{index:04X}Value]", f"NrOfEntries={len(texts)}", *values])
        return found + encoded(["", "[DeviceComissioning]", *about])

    def _sections(self) -> Iterator[Tuple[int, List[bytes]]]:
        """The sections without values and without who the node is: the number of the header, and the lines of each."""
        section: List[bytes] = []
        start, kept = 0, True
        for number, line in enumerate(self.lines, 1):
            name = ini.header_of((ini.without_mark(line) if number == 1 else line).strip(ini.BLANKS))
            if name is not None:
                yield start, section
                section, start, kept = [], number, name not in COMMISSIONING and not self._is_of_values(name)
            pair = ini.pair_in(line)
            if kept and not (pair and pair[0] == "parametervalue"):
                section.append(line)
        yield start, section

    def _is_of_values(self, name: str) -> bool:
        """Whether a section gives values to entries that get others."""
        found = VALUES.fullmatch(name)
        return found is not None and int(found.group(1), 16) in self.compact

    def _with_value(self, start: int, section: List[bytes]) -> List[bytes]:
        """The lines of a section, with its value behind the last one that isn't blank."""
        if start not in self.single:
            return section
        end = max(place for place, line in enumerate(section, 1) if line.strip())
        return section[:end] + encoded([f"ParameterValue={self.single[start]}"]) + section[end:]


def encoded(lines: List[str]) -> List[bytes]:
    return [line.encode("utf-8", "surrogateescape") for line in lines]
