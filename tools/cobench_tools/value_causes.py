"""Why a value isn't written, is none, or is of no use: for each diagnostic that is about no message the line, and the cause."""
import re

from . import ini, reals, values
from .data_types import NUMBERS, REALS, VISIBLE_STRING, type_name
from .digits import hexadecimal
from .project import PRODUCER_TIME
from .safe_text import shortened
from .wiring import COMMUNICATION, EXTENDED, MOST_PDOS, OFF, TPDO

U8, U16, U32 = 0x05, 0x06, 0x07
EXPLAINED = "E01", "E02", "E03", "E04", "E15", "E16", "W19", "W20", "W21", "W25", "W27"


def why_no_value(kind, text, node):
    """Why a text is no value of a data type at a node."""
    if kind in REALS:
        return why_no_real(kind, text)
    if kind not in NUMBERS:
        too_long = kind == VISIBLE_STRING or re.fullmatch("([0-9A-Fa-f]{2})*", text)
        return f"a value has at most {values.LONGEST} bytes" if too_long else "its bytes are pairs of hexadecimal digits"
    low, high = values.range_of(kind)
    number = values.read_formula(text, node)
    if number is not None:
        formula = f" (node {node} makes it {number:,})" if "$" in text else ""
        return f"the numbers of that type are {low:,} to {high:,}{formula}"
    if re.fullmatch("[0-9A-Fa-f]+[hH]", text):
        return f"a hexadecimal number is written 0x{text[:-1]}"
    return "a number is decimal, 0x and hexadecimal, or $NODEID+number"


def why_no_real(kind, text):
    """Why a text is no value of REAL32 or REAL64."""
    if reals.DECIMAL.fullmatch(text):
        return f"the numbers of that type are up to {reals.greatest_text(kind)}, and down to -{reals.greatest_text(kind)}"
    return "a number is decimal, with a point and a power of ten or without, as 2.5, -4 and 1e-3"


def subs_text(subs):
    """Sub-indices in words: `00 to 08`, `00, 02, 05`."""
    if len(subs) > 2 and subs[-1] - subs[0] == len(subs) - 1:
        return f"{subs[0]:02X} to {subs[-1]:02X}"
    return ", ".join(f"{sub:02X}" for sub in subs[:8]) + (" .." if len(subs) > 8 else "")


class ValueCauses:
    """The causes of what `diag` says of values, events, identifiers and data sheets, over the evidence of a session."""

    def __init__(self, evidence):
        self.evidence, self.project, self.origins = evidence, evidence.project, evidence.origins
        self._unused = {}

    def of(self, code, words):
        """FILE:LINE of a diagnostic, who it is about, and the cause, by the words of its subject."""
        what, *rest = words
        if code not in EXPLAINED:
            return self.unexplained(what, int(rest[0]))
        if what == "event":
            return self.idle(int(rest[0])) if code == "W25" else self.event(code, int(rest[0]))
        if what == "cob":
            return self.two_senders(hexadecimal(rest[0]))
        if what == "eds":
            return self.unused_line(rest[0], int(rest[1]))
        if what == "node" and code == "W19":
            return self.consumer(int(rest[0]), hexadecimal(rest[1]))
        if what == "node":
            return self.other_heartbeat(int(rest[0])) if code == "W27" else self.counter(int(rest[0]))
        node, key = int(rest[0]), (hexadecimal(rest[1]), hexadecimal(rest[2]))
        return self.default(node, key) if what == "default" else self.param(code, node, key)

    def unexplained(self, what, number):
        """What a newer cobench may say of an event or a node."""
        who = self.evidence.node_name(number) if what == "node" else f"{what} {number}"
        return self.origins.place(what, number), who, "cobench says so"

    # Values of parameters, events and defaults.

    def param(self, code, node, key):
        place = self.evidence.value_place(node, key)
        entry = self.evidence.device(node).entries.get(key)
        text = self.project.params.get((node, *key), entry.value if entry else "")
        why = self.why_not_written(code, node, key, text)
        return place, self.evidence.node_name(node), f"{self.evidence.entry_name(node, key)}: {why}"

    def why_not_written(self, code, node, key, text):
        """Why an entry doesn't get the value of a text."""
        if code == "E01":
            return self.why_no_entry(node, key)
        entry = self.evidence.device(node).entries[key]
        if code == "E16":
            return f"its type isn't modelled: {type_name(entry.kind)}"
        if code == "E04":
            return f"it can't be written (AccessType {entry.access})"
        if code == "E02":
            return f"\"{shortened(text)}\" is no {type_name(entry.kind)}: {why_no_value(entry.kind, text, node)}"
        return self.why_beyond(node, entry, text)

    def why_no_entry(self, node, key):
        """That a data sheet hasn't an entry, and what it has of that object."""
        eds = self.project.nodes[node][1]
        subs = sorted(sub for index, sub in self.evidence.device(node).entries if index == key[0])
        if not subs:
            return f"data sheet {eds} has no object {key[0]:04X}h"
        return f"data sheet {eds} has no such sub-index; it has {subs_text(subs)}"

    def why_beyond(self, node, entry, text):
        """Which limit a value passes."""
        number = values.number_of(entry.kind, text, node)
        low, _ = values.limits_of(entry, node)
        side, key, limit = ("below", "lowlimit", entry.low) if low is not None and number < low else (
            "above", "highlimit", entry.high)
        where = self.evidence.sheet_place(node, entry.line_of(key))
        name = "LowLimit" if side == "below" else "HighLimit"
        return f"{shortened(text)} is {side} the {name} {shortened(limit)} ({where})"

    def default(self, node, key):
        entry = self.evidence.device(node).entries[key]
        text = entry.default
        why = f"DefaultValue \"{shortened(text)}\" is no {type_name(entry.kind)}: {why_no_value(entry.kind, text, node)}"
        taken = "0" if entry.bits else "no bytes"
        place = self.evidence.sheet_place(node, entry.line_of("defaultvalue"))
        return place, self.evidence.node_name(node), f"{self.evidence.entry_name(node, key)}: {why}; {taken} is taken for it"

    def event(self, code, number):
        event = self.project.events[number]
        why = self.why_not_written(code, event.node, event.entry, event.what)
        entry = f"{self.evidence.entry_name(event.node, event.entry)} of {self.evidence.node_name(event.node)}"
        return self.origins.place("event", number), f"event {number}", f"{entry}: {why}"

    # The controller, the node that the manager runs in.

    def idle(self, number):
        """Why an event of the controller does nothing."""
        event, name = self.project.events[number], self.evidence.node_name(self.project.controller)
        text = f"power {event.what} of {name} does nothing: the manager runs in it, and its power isn't switched; nmt 129 resets its device"
        if event.kind == "set":
            entry = self.evidence.entry_name(event.node, event.entry)
            text = f"{entry} of {name} isn't asked: the node's heartbeat is the manager's, {self.beats()} (HB_MS of manager)"
        return self.origins.place("event", number), f"event {number}", text

    def other_heartbeat(self, node):
        """That the heartbeat time of the controller isn't the manager's."""
        number = self.evidence.node(node).number_at(*PRODUCER_TIME, U16)
        text = (f"{self.evidence.entry_name(node, PRODUCER_TIME)} is {number}, and the node is the manager, whose heartbeat comes "
                f"{self.beats()}: a param with {self.project.manager[2]} would do, or {number} for HB_MS of manager")
        return self.evidence.value_place(node, PRODUCER_TIME), self.evidence.node_name(node), text

    def beats(self):
        """How often the manager sends its heartbeat, in words."""
        return f"each {self.project.manager[2]} ms" if self.project.manager[2] else "never"

    # Values of the configured nodes.

    def two_senders(self, identifier):
        """Which TPDOs are on with one identifier."""
        senders = [(node, number) for node in sorted(self.project.nodes) for number in self.tpdos_with(node, identifier)]
        texts = [f"TPDO {number} of {self.evidence.node_name(node)} ({self.whose(node, number)})" for node, number in senders]
        more = [f"{len(texts) - 4} more"] if len(texts) > 4 else []
        return self.sender_place(senders), f"identifier {identifier:03X}h", f"it is sent by {', '.join(texts[:4] + more)}"

    def tpdos_with(self, node, identifier):
        """The TPDOs of a node that are on with an identifier."""
        device, first = self.evidence.node(node), COMMUNICATION[TPDO]
        for index, sub in sorted(device.device.entries):
            cob = device.number_at(index, 1, U32) if sub == 1 and 1 <= index - first <= MOST_PDOS else None
            if cob is not None and not cob & (OFF | EXTENDED) and cob & 0x7FF == identifier:
                yield index - first

    def whose(self, node, number):
        """What switches a TPDO on."""
        message = self.evidence.plan.sender_of(node, number)
        return f"message {message}" if message else "by its default"

    def sender_place(self, senders):
        """The line of the first of these TPDOs that a message switches on, else of the first one's default."""
        names = [self.evidence.plan.sender_of(*sender) for sender in senders]
        named = [name for name in names if name]
        if named:
            return self.origins.place("message", named[0])
        node, number = senders[0]
        return self.evidence.value_place(node, (COMMUNICATION[TPDO] + number, 1))

    def consumer(self, node, sub):
        """Why a heartbeat consumer is of no use."""
        word = self.evidence.node(node).number_at(0x1016, sub, U32)
        watched, time = word >> 16 & 0xFF, word & 0xFFFF
        text = f"{self.evidence.entry_name(node, (0x1016, sub))}: it waits {time} ms for {self.watched(watched, node)}"
        return self.evidence.value_place(node, (0x1016, sub)), self.evidence.node_name(node), text

    def watched(self, number, by):
        """How often a node that is watched by another sends its heartbeat, in words."""
        if number == by == self.project.controller:
            return "the node itself, which hears no heartbeat of its own"
        if number == self.project.manager[0]:
            is_node = number in self.project.nodes
            name, period = self.evidence.node_name(number) if is_node else "the manager", self.project.manager[2]
        elif number in self.project.nodes:
            name, period = self.evidence.node_name(number), self.evidence.node(number).number_at(0x1017, 0, U16)
        else:
            return f"node {number}, which isn't there"
        return f"{name}, which sends its heartbeat each {period} ms" if period else f"{name}, which sends no heartbeat"

    def counter(self, node):
        """That a node counts SYNC to another number."""
        number, counter = self.evidence.node(node).number_at(0x1019, 0, U8), self.project.sync_counter
        network = f"SYNC counts from 1 to {counter}" if counter else "SYNC isn't counted (sync-counter is 0)"
        text = f"{self.evidence.entry_name(node, (0x1019, 0))} is {number}, and {network}"
        return self.evidence.value_place(node, (0x1019, 0)), self.evidence.node_name(node), text

    # Lines of data sheets.

    def unused_line(self, eds, line):
        """Why a line of a data sheet isn't used."""
        if eds not in self._unused:
            self._unused[eds] = ini.unused_lines(self.project.texts[eds])
        text = self.project.texts[eds][line - 1].decode("utf-8", "surrogateescape").strip()
        why = self._unused[eds].get(line, "it isn't used")
        return self.origins.sheet_place(eds, line), f"data sheet {eds}", f"\"{shortened(text)}\": {why}"
