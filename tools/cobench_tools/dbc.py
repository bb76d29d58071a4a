"""The PDOs of a network as a DBC, by which other tools name and plot them.

A DBC's names have at most 32 letters, digits and underscores, and its texts no quotation mark; the bits of a
little-endian signal are counted as those of a CANopen frame. A REAL is a signal of its bits with a sign, and a line behind
all others says that they are those of IEEE 754.
"""
import re

from . import matrix, receiver_names, reals, values
from .data_types import REAL32, REAL64, REALS, SIGNED
from .device import object_name
from .safe_text import dbc_text

LONGEST_NAME = 32
NOBODY = "Vector__XXX"
SYMBOLS = "CM_", "BA_DEF_", "BA_", "BA_DEF_DEF_"
OF_REALS = "SIG_VALTYPE_"
VALUE_TYPES = {REAL32: 1, REAL64: 2}        # how a DBC says of a signal's bits that they are those of IEEE 754
ATTRIBUTES = """BA_DEF_ BU_ "NodeNumber" INT 0 127;
BA_DEF_ BO_ "GenMsgCycleTime" INT 0 2400000;
BA_DEF_DEF_ "NodeNumber" 0;
BA_DEF_DEF_ "GenMsgCycleTime" 0;
"""


class Names:
    """Gives names that a DBC can have, each once."""

    def __init__(self):
        self.taken = set()

    def of(self, text):
        """The name of a text: what it can't have becomes underscores; where it is taken, a number is put behind."""
        name = re.sub("[^A-Za-z0-9_]+", "_", text) if text else "unnamed"
        name = start = (f"_{name}" if name[0].isdigit() else name)[:LONGEST_NAME].rstrip("_") or "_"
        number = 1
        while name in self.taken:
            number += 1
            name = f"{start[:LONGEST_NAME - len(str(number)) - 1]}_{number}"
        self.taken.add(name)
        return name


class Dbc:
    """The lines of a DBC: of its messages, its comments, its attributes, and its signals that are REALs.

    `by_receiver` names a signal as its receivers do, where the sender's name says nothing.
    """

    def __init__(self, network, by_receiver=False):
        self.network, self.by_receiver = network, by_receiver
        nodes = Names()
        nodes.taken.add(NOBODY)
        self.nodes = {number: nodes.of(network.name(number)) for number in sorted(network.nodes)}
        self.messages, self.comments, self.attributes, self.reals = [], [], [], []
        for number, name in self.nodes.items():
            self.comments.append(f"CM_ BU_ {name} {dbc_text(f'node {number} {network.name(number)}')};")
            self.attributes.append(f'BA_ "NodeNumber" BU_ {name} {number};')
        self._add_messages()

    def _add_messages(self):
        """All messages, of TPDOs with one identifier the first alone; `left_out` are the others."""
        names, known, self.left_out = Names(), set(), []
        for tpdo in self.network.tpdos:
            if tpdo.identifier in known:
                self.left_out.append(tpdo)
                continue
            known.add(tpdo.identifier)
            self._add_message(names, tpdo)

    def _add_message(self, names, tpdo):
        sender = self.nodes[tpdo.node]
        name = names.of(self.network.message_of(tpdo) or f"{self.network.name(tpdo.node)}_TPDO{tpdo.number}")
        self.messages.append(f"BO_ {tpdo.identifier} {name}: {tpdo.size} {sender}")
        about = f"TPDO {tpdo.number} of {self.network.name(tpdo.node)}, sent {matrix.when(tpdo)}"
        self.comments.append(f"CM_ BO_ {tpdo.identifier} {dbc_text(about)};")
        if cycle_time(self.network, tpdo):
            self.attributes.append(f'BA_ "GenMsgCycleTime" BO_ {tpdo.identifier} {cycle_time(self.network, tpdo)};')
        signals = Names()
        for part in tpdo.parts:
            self._add_signal(signals, tpdo, part)
        self.messages.append("")

    def _add_signal(self, names, tpdo, part):
        beside = receiver_names.of_part(self.network, tpdo, part) if self.by_receiver else ""
        name = names.of(beside or part.entry.name or f"entry {object_name(part.key)}")
        targets = self.network.targets(tpdo, part)
        receivers = ",".join(sorted({self.nodes[pdo.node] for pdo, _ in targets})) or NOBODY
        low, high = limits(part.entry, tpdo.node)
        sign = "-" if part.entry.kind in SIGNED or part.entry.kind in REALS else "+"
        self.messages.append(f' SG_ {name} : {part.start}|{part.bits}@1{sign} (1,0) [{low}|{high}] "" {receivers}')
        taken = [f"{self.network.name(pdo.node)} takes it as {described(other)}" for pdo, other in targets]
        self.comments.append(f"CM_ SG_ {tpdo.identifier} {name} {dbc_text('; '.join([described(part)] + taken))};")

        if part.entry.kind in REALS:
            self.reals.append(f"{OF_REALS} {tpdo.identifier} {name} : {VALUE_TYPES[part.entry.kind]};")

    def text(self):
        nodes = f"BU_: {' '.join(self.nodes.values())}".rstrip()
        lines = [nodes, ""] + self.messages + self.comments
        behind = "".join(line + "\n" for line in self.attributes + self.reals)
        return self._head() + "\n".join(lines) + "\n" + ATTRIBUTES + behind

    def _head(self):
        """The version, the symbols that the DBC uses, and that it says nothing of the bit rate."""
        symbols = (*SYMBOLS, OF_REALS) if self.reals else SYMBOLS
        return 'VERSION ""\n\nNS_ :\n' + "".join(f"\t{each}\n" for each in symbols) + "\nBS_:\n\n"


def described(part):
    return f"{object_name(part.key)} {part.entry.name}".rstrip()


def limits(entry, node):
    """The least and the greatest number of a signal: by the data sheet, else by its type."""
    if entry.kind in REALS:
        return real_limits(entry)
    least, greatest = values.range_of(entry.kind)
    low, high = values.limits_of(entry, node)
    return least if low is None else low, greatest if high is None else high


def real_limits(entry):
    """Those of a REAL, as texts."""
    greatest = reals.greatest_text(entry.kind)
    found = (reals.data_of(entry.kind, text) for text in (entry.low, entry.high))
    texts = (None if data is None else reals.text_of(entry.kind, data) for data in found)
    return tuple(text or other for text, other in zip(texts, (f"-{greatest}", greatest)))


def cycle_time(network, tpdo):
    """The milliseconds after which a message comes again, 0 for none that is known."""
    if tpdo.kind is not None and 1 <= tpdo.kind <= 240:
        return tpdo.kind * network.project.manager[1] // 1000
    return tpdo.event if tpdo.kind in (254, 255) else 0
