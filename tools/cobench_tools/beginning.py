"""The first script of a network, of the data sheets of its devices: what `cobtool start` prints."""
import os
import re

from . import script, tool, values
from .data_types import OF_VERSION_3, WHOLE, are_unlike
from .device import Device, read_number
from .joined import Draft, free_name
from .limits import RATES
from .machine import message_lines
from .node_file import name_of
from .pdo_objects import SentOrTaken
from .wiring import RPDO, TPDO, Node, pdo_numbers

MANAGER, HEARTBEAT_MS, USUAL_RATE = 127, 100, 500
SYNC_US, LAST_SYNCED = 10_000, 240
UNSIGNED16 = 0x06
WORDS_OF_SHEETS = "# The data sheets, and a node of each. A number is that of the node's switches or of its LSS."
WORDS_OF_MESSAGES = """#
# What the nodes send by their data sheets, as messages. Take the # away from those that the network is to have. Each
# `sink MESSAGE POS NODE INDEX SUB` says who takes an entry: those that stand here fit by their number of bits alone.
""".splitlines()
WORDS_OF_UNUSED = "# A PDO that no message uses is off, where it can be."


class Sheet:
    """A data sheet that a script takes in: its name there, its file, and its device."""

    def __init__(self, name, path, lines):
        self.name, self.path, self.device = name, path, Device(lines, WHOLE)
        if not self.device.entries:
            raise tool.Fault(f"{path}: no section of it describes an entry: this is no data sheet")

    def rules_out(self, rate):
        """Whether it says that the device hasn't this bit rate, in kbit/s."""
        return read_number(self.device.sections.get("deviceinfo", {}).get(f"baudrate_{rate}", "")) == 0


def read_sheets(paths):
    """The data sheets of these files, each file once, and the sheet of each path."""
    names, sheets = set(), {}
    for path in paths:
        if path not in sheets:
            stem = name_of(os.path.splitext(os.path.basename(path))[0]) or "device"
            name = free_name(stem, names)
            sheets[path] = Sheet(name, path, script.eds_lines(name.encode(), path))
    return sheets


def check_path(path):
    """Whether a script can name a file."""
    if re.search(r"[\x00-\x1f]|[ \t]#", path):
        raise tool.Fault(f"{path!r}: no script can name this file")


def can_take(entry, part):
    """Whether an entry could take a part of a message."""
    return entry.is_taken() and entry.bits == part.bits and not are_unlike(entry.kind, part.entry.kind)


class Takers:
    """The entries that could take what is sent: each is given once, and a node takes a message for each RPDO."""

    def __init__(self, nodes):
        self.nodes, self.given = nodes, set()
        self.left = {number: len(pdo_numbers(node.device, RPDO)) for number, node in nodes.items()}

    def of_message(self, sender, parts):
        """A node and an entry of it for each part of a message, or None."""
        nodes = set()
        found = [self._taker(sender, part, nodes) for part in parts]
        for number in nodes:
            self.left[number] -= 1
        return found

    def _taker(self, sender, part, nodes):
        """An entry of that width, at a node that takes the message already or has an RPDO left for it."""
        for number, node in self.nodes.items():
            if number != sender and (number in nodes or self.left[number]):
                for key, entry in node.device.entries.items():
                    if can_take(entry, part) and (number, key) not in self.given:
                        self.given.add((number, key))
                        nodes.add(number)
                        return number, key
        return None


class Beginning:
    """A network with a node for each of these data sheets, in their order."""

    def __init__(self, paths):
        for path in paths:
            check_path(path)
        self.sheets = read_sheets(paths)
        if len(paths) >= MANAGER:
            raise tool.Fault(f"{len(paths)} nodes, and a network has at most {MANAGER - 1} beside its manager")
        names = set()
        self.names = {number: free_name(self.sheets[path].name, names) for number, path in enumerate(paths, 1)}
        self.sheet_of = {number: self.sheets[path] for number, path in enumerate(paths, 1)}
        self.nodes = {number: Node(number, sheet.device, {}) for number, sheet in self.sheet_of.items()}

    @property
    def rate(self):
        """The bit rate: the usual one where no data sheet rules it out, else the greatest that none rules out."""
        fitting = [rate for rate in RATES if not any(sheet.rules_out(rate) for sheet in self.sheets.values())]
        if not fitting:
            raise tool.Fault("the data sheets have no bit rate in common")
        return USUAL_RATE if USUAL_RATE in fitting else fitting[-1]

    @property
    def sync(self):
        """The time between two SYNC messages: 0 where no PDO that is on goes by SYNC."""
        kinds = (pdo.kind for node in self.nodes.values() for way in (TPDO, RPDO) for pdo in node.pdos(way))
        return SYNC_US if any(kind is not None and kind <= LAST_SYNCED for kind in kinds) else 0

    @property
    def version(self):
        """That of the script: 3 where a PDO that is on can't be set, as one of a fixed mapping, or has a data type of version 3, else
        2."""
        sent = (SentOrTaken(node.device, number, TPDO, pdo.number).why_not_sent(self._draft(pdo).message(), pdo.items)
                for number, node in self.nodes.items() for pdo in node.pdos(TPDO))
        carried = (part.entry.kind for node in self.nodes.values() for way in (TPDO, RPDO) for pdo in node.pdos(way)
                   for part in pdo.parts if not part.is_dummy())
        return 3 if any(sent) or any(kind in OF_VERSION_3 for kind in carried) else 2

    def lines(self):
        """The lines of the script."""
        lines = ["# Begun by cobtool start. `cobtool check` says what is wrong with it, and `cobtool live` shows it.",
                 f"version {self.version}", f"bitrate {self.rate}", "horizon 1000000", "#", *self._manager(), "#", WORDS_OF_SHEETS]
        for sheet in self.sheets.values():
            lines.append(f"eds {sheet.name} <{sheet.path}")
        for number in self.nodes:
            lines += self._node(number)
        return lines + self._messages()

    def _manager(self):
        sync = f"SYNC each {self.sync // 1000} ms" if self.sync else "no SYNC"
        return [f"# The manager has number {MANAGER}, sends {sync} and no heartbeat, and waits 500 ms for an answer.",
                "# Where it is one of the nodes, as a PLC mostly is, it has the number of that, in version 3.",
                f"manager {MANAGER} {self.sync} 0 500"]

    def _node(self, number):
        lines = [f"node {number} {self.names[number]} {self.sheet_of[number].name}"]
        return lines + ([f"param {number} 1017 0 {HEARTBEAT_MS}"] if self._can_beat(number) else [])

    def _can_beat(self, number):
        """Whether the node can be given the heartbeat time."""
        entry = self.nodes[number].device.entries.get((0x1017, 0))
        if not entry or entry.kind != UNSIGNED16 or not entry.is_writable():
            return False
        low, high = values.limits_of(entry, number)
        return (low is None or low <= HEARTBEAT_MS) and (high is None or HEARTBEAT_MS <= high)

    def _messages(self):
        """The messages as comments, each with whom it could go to."""
        drafts = [self._draft(pdo) for node in self.nodes.values() for pdo in node.pdos(TPDO)]
        if not drafts:
            return []
        takers = Takers(self.nodes)
        return WORDS_OF_MESSAGES + [WORDS_OF_UNUSED] * (self.version == 3) + [line for draft in drafts for line in message_of(draft, takers)]

    def _draft(self, pdo):
        suffix = f"_{pdo.number}"
        return Draft(pdo, self.names[pdo.node][:32 - len(suffix)] + suffix)

    def script(self):
        return "".join(line + "\n" for line in self.lines())


def message_of(draft, takers):
    """The lines of a message, each a comment."""
    lines = [line for line in message_lines(draft) if line != "#"]
    sources = [line for line in lines[1:] if line.startswith("source ")]
    found = ["#", f"# {lines[0].rpartition(' ')[0]} 0"] + [f"# {line}" for line in lines[1:len(lines) - len(sources)]]
    given = takers.of_message(draft.tpdo.node, draft.tpdo.parts)
    for line, part, taker in zip(sources, draft.tpdo.parts, given):
        found += [f"#   {part.entry.name}, {part.bits} bits", f"# {line}"]
        if taker:
            number, (index, sub) = taker
            found.append(f"# sink {draft.name} {line.split(' ')[2]} {number} {index:04X} {sub:X}")
    return [re.sub("[\x00-\x1f\x7f]", " ", line) for line in found]
