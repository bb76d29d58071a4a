"""The DCF of one node of an existing machine: its data sheet, who it is, and the values that it is set to."""
import os
import re

from . import ini, safe_text, script, tool, values
from .device import Device, read_number
from .pdo_values import is_of_pdos
from .wiring import Node, pdo_numbers, pdo_of

COMMISSIONING = "devicecomissioning", "devicecommissioning"
LONGEST_NAME = 32
SPELLED = {"netnumber": "NetNumber", "networkname": "NetworkName", "canopenmanager": "CANopenManager",
           "lss_serialnumber": "LSS_SerialNumber", "noderefd": "NodeRefd", "netrefd": "NetRefd"}
VALUES = re.compile("([0-9a-f]{4})value")
CONCISE_DCFS, UPLOAD = 0x1F22, "uploadfile"


def name_of(text):
    """A text as a name that a script can have, "" where nothing of it can stand in one."""
    return re.sub("[^A-Za-z0-9]+", "_", safe_text.readable(text)).strip("_")[:LONGEST_NAME]


def is_export(lines):
    """Whether these lines are as cobench prints a DCF: sections and keys alone, and who the node is at the end."""
    starts = [number for number, line in enumerate(lines) if line.startswith(b"[")]
    last = lines[starts[-1]:starts[-1] + 4] if starts else []
    names = [line.partition(b"=")[0] for line in last]
    return names == [b"[DeviceComissioning]", b"NodeID", b"NodeName", b"Baudrate"] and not any(
        not line or line.startswith(b";") for line in lines)


class NodeFile:
    """A DCF as it was read for a script of a version.

    path            the file
    number, name    the node's
    bitrate, line   its Baudrate in kbit/s, None for none, and the line of its NodeID
    is_manager      whether it is the CANopen manager
    dropped         the keys of its commissioning section that no script can say: line, key and value each
    uploads         the lines that name a file for the concise DCF of a node, by that node's number
    is_export       whether it has the form in which cobench prints DCFs: then each of its values was set by somebody
    device          its entries, with the values that the file gives them
    sheet           the lines of its data sheet: without these values, and without who the node is
    node            the node with the values that the file gives
    """

    def __init__(self, path, version):
        self.path = path
        lines = script.eds_lines(b"dcf", path)
        self.is_export = is_export(lines)
        self.device = Device(lines, version)
        self._read_commissioning()
        self.uploads = self._uploads()
        self.sheet = self._without_values(lines)
        self.node = Node(self.number, self.device, self._given_values())

    def _read_commissioning(self):
        sections = [self.device.sections[name] for name in COMMISSIONING if name in self.device.sections]
        if not sections:
            raise tool.Fault(f"{self.path}: no [DeviceComissioning] says which node it is of: this is a data sheet, "
                             "and no DCF")
        keys = sections[0]
        self.line = keys.lines.get("nodeid", keys.line)
        self.number = read_number(keys.get("nodeid", ""))
        if self.number is None or not 1 <= self.number <= 127:
            there = keys.get("nodeid", "missing")
            raise tool.Fault(f"{tool.Place(self.path, self.line)}: NodeID is 1 to 127, not {there}")
        stem = os.path.splitext(os.path.basename(self.path))[0]
        self.name = name_of(keys.get("nodename", "")) or name_of(stem) or f"node_{self.number}"
        self.is_manager = bool(read_number(keys.get("canopenmanager", "0")))
        self.dropped = [(keys.lines[key], SPELLED.get(key, key), value)
                        for key, value in keys.items() if value and self._is_dropped(key)]
        self.bitrate = read_number(keys.get("baudrate", ""))

    def _uploads(self):
        """The lines by which the sub-indexes of 1F22h have the bytes of files."""
        found = {}
        for (index, sub), entry in self.device.entries.items():
            if index == CONCISE_DCFS and sub and UPLOAD in entry.keys:
                found[sub] = entry.line_of(UPLOAD)
        return found

    def _is_dropped(self, key):
        """Whether a key of the commissioning section says what a script has no word for."""
        return self.is_manager if key == "canopenmanager" else key not in ("nodeid", "nodename", "baudrate")

    def _given_values(self):
        """The bytes of the entries to which the file gives values."""
        found = {key: values.data_of(entry.kind, entry.value, self.number)
                 for key, entry in self.device.entries.items() if entry.value and entry.is_modelled}
        return {key: data for key, data in found.items() if data is not None}

    def on_pdos(self, direction):
        """The PDOs of a direction that are on."""
        found = [self.node.pdo(direction, number) for number in pdo_numbers(self.device, direction)]
        return [pdo for pdo in found if pdo]

    def set_pdos(self, direction):
        """Those that are on, and of which the file gives a value."""
        set_ones = {pdo_of(index) for index, _ in self.node.written if is_of_pdos(index)}
        return [pdo for pdo in self.on_pdos(direction) if (direction, pdo.number) in set_ones]

    def _without_values(self, lines):
        """The lines of the data sheet; values of types that cobench doesn't model stay, as no script can set them."""
        given = {entry.line for key, entry in self.device.entries.items()
                 if entry.value and (entry.is_modelled or is_of_pdos(key[0]))} | set(self.uploads.values())
        kept, section, start = [], "", 0
        for number, line in enumerate(lines, 1):
            name = ini.header_of(line.strip(ini.BLANKS))
            if name is not None:
                self._end_section(kept, section, start)
                section, start = name, len(kept)
            if section not in COMMISSIONING and number not in given:
                kept.append(line)
        self._end_section(kept, section, start)
        return kept

    def _end_section(self, kept, section, start):
        """Takes a section of values of compact subs away, where no value is left in it; its other lines stay."""
        found, lines = VALUES.fullmatch(section), [line.strip(ini.BLANKS) for line in kept[start:]]
        keys = {pair[0] for pair in map(ini.pair_of, lines) if pair}
        if found and self._is_compact(found.group(1)) and keys <= {"nrofentries"}:
            kept[start:] = [line for line in lines[1:] if not line or line.startswith(b";")]

    def _is_compact(self, section):
        return bool(read_number(self.device.sections.get(section, {}).get("compactsubobj", "0")))

    def sheet_name(self):
        """The name of the data sheet, as far as the file tells it."""
        info, about = (self.device.sections.get(name, {}) for name in ("fileinfo", "deviceinfo"))
        for text in (info.get("lasteds", ""), info.get("filename", ""), about.get("productname", "")):
            name = name_of(os.path.splitext(text.replace("\\", "/").rpartition("/")[2])[0])
            if name:
                return name
        return name_of(self.name)

    def content(self):
        """What the data sheet says but for its [FileInfo]: equal for nodes of one data sheet."""
        sections = ini.sections_of(self.sheet)
        sections.pop("fileinfo", None)
        return tuple((name, tuple(keys.items())) for name, keys in sections.items())
