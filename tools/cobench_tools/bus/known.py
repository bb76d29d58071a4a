"""What the files say of a device on the bus: by a script its name and its data sheet, or a data sheet alone."""
import argparse
from typing import Any, Callable, List, Optional

from .. import script, session, tool, within
from ..data_types import WHOLE
from ..device import Device, Entry
from ..origins import Origins
from ..replies import QUERIES
from .transfer import Key
from .value import kind_of


def add_arguments(parser: argparse.ArgumentParser, with_type: bool = False) -> None:
    """The words that name the files."""
    parser.add_argument("--script", metavar="SCRIPT", help="take the node and its data sheet from this script")
    parser.add_argument("--eds", metavar="FILE", help="take the data sheet from this EDS or DCF")
    if with_type:
        parser.add_argument("--type", metavar="TYPE",
                            help="the data type, as UNSIGNED16 or REAL32, where no data sheet says it")
    session.add_arguments(parser)
    within.add_argument(parser)


def add_entry(parser: argparse.ArgumentParser) -> None:
    """The words that name an entry."""
    parser.add_argument("node", metavar="NODE", type=int, help="the number of the node, decimal")
    parser.add_argument("index", metavar="INDEX", help="the index of the entry, hexadecimal as in scripts")
    parser.add_argument("sub", metavar="SUB", help="its sub-index, hexadecimal")


def check_node(number: int) -> None:
    if not 1 <= number <= 127:
        raise tool.Fault(f"a node has a number from 1 to 127, not {number}")


def key_of(options: argparse.Namespace) -> Key:
    """The entry that the words of a command name."""
    return hexadecimal("INDEX", options.index, 0xFFFF), hexadecimal("SUB", options.sub, 0xFF)


def hexadecimal(name: str, text: str, most: int) -> int:
    """A hexadecimal number; 0x before it and h behind it may be there."""
    digits = text[2:] if text[:2] in ("0x", "0X") else text.rstrip("hH") if text[-1:] in ("h", "H") else text
    try:
        number = int(digits, 16)
    except ValueError:
        number = -1
    if not 0 <= number <= most or not digits.isalnum():
        raise tool.Fault(f"{name} is a hexadecimal number up to {most:X}, not {text}")
    return number


class Known:
    """What is known of a node.

    number   its number
    name     its name in words: `node 5 pump`
    label    its name alone
    device   its data sheet, None where nothing names one
    bitrate  the script's in kbit/s, None without a script
    manager  the script's number of the manager, None without one
    planned  whether the script has it; without a script it is
    eds      the file or the name of its data sheet, for telling
    lines    the lines of its data sheet
    """

    def __init__(self, number: int, options: argparse.Namespace) -> None:
        check_node(number)
        self.number, self.name, self.label = number, f"node {number}", f"node_{number}"
        self.device: Optional[Device] = None
        self.lines: List[bytes] = []
        self._place: Callable[[int], tool.Place]
        self.bitrate: Optional[int] = None
        self.manager: Optional[int] = None
        self.eds: Optional[str] = None
        self.planned = True
        if options.script and options.eds:
            raise tool.Fault("the data sheet comes by --script or by --eds, not by both")
        if options.script:
            self._take_script(options)
        elif options.eds:
            self.eds, self.lines = options.eds, script.eds_lines(b"sheet", options.eds)
            self.device, self._place = Device(self.lines, WHOLE), lambda line: tool.Place(options.eds, line)

    def _take_script(self, options: argparse.Namespace) -> None:
        answered = session.run(options.script, options.cobench, (), edits_of)
        project = answered.project
        self.bitrate, self.manager = project.bitrate, project.manager[0]
        self.planned = self.number in project.nodes
        if self.planned:
            name, self.eds = project.nodes[self.number]
            self.name, self.label, self.lines = f"node {self.number} {name}", name, project.texts[self.eds]
            self.device, origins = Device(self.lines, project.version), Origins(answered.pairs)
            self._place = lambda line: origins.sheet_place(self.eds, line)
        elif not getattr(options, "force", False):
            raise tool.Fault(f"{tool.name_of(options.script)} has no node {self.number}"
                             + (": it is the manager" if self.number == self.manager else ""))

    def sheet(self) -> Device:
        """The data sheet, which has to be there."""
        if self.device is None:
            raise tool.Fault("--script or --eds names the data sheet, whose entries are read")
        return self.device

    def sheet_place(self, line: int) -> tool.Place:
        """FILE:LINE of a line of the data sheet."""
        return self._place(line)

    def check_planned(self, options: argparse.Namespace) -> None:
        """Whether the script has the node; with --force that is told alone."""
        if not self.planned:
            tool.warn(f"warning: {tool.name_of(options.script)} has no node {self.number}")

    def entry(self, key: Key) -> Optional[Entry]:
        """The data sheet's entry, None where it has none."""
        return self.device.entries.get(key) if self.device else None

    def entry_name(self, key: Key) -> str:
        """An entry in words."""
        entry = self.entry(key)
        return f"{key[0]:04X}h:{key[1]:02X}" + (f" {entry.name}" if entry and entry.name else "")

    def kind(self, key: Key, given: Optional[str] = None) -> int:
        """The data type of an entry: the one that is given, else that of the data sheet, else 0."""
        entry = self.entry(key)
        return kind_of(given) if given else entry.kind if entry else 0


def edits_of(commands: List[Any]) -> List[Any]:
    """The commands of a script that make its network."""
    return [command for command in commands if command.name not in QUERIES]
