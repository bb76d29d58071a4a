"""The project: what edits do to it, and how it is printed: docs/rules/commands.md.

Version 3 has `receive MESSAGE ID RPDO MS` and `unreceive MESSAGE ID`: the node takes the message by that RPDO (0: the
one that the plan gives) and expects it within so many milliseconds (0: the entry stays as it is); and `time-period US
DAYS`: the manager sends TIME, and the run begins at midnight of that day. A node may have the manager's number."""
from dataclasses import dataclass, field
from typing import Dict, List, NamedTuple, Tuple
from .commands import FORMS
from .entries import DataSheet
from .faults import IN_USE, LIMIT, RANGE, TAKEN, UNKNOWN, refuse_unless
from .write_check import Place

MOST_TEXTS, MOST_PARAMETERS, MOST_MESSAGES = 64, 4_096, 1_024
LEAST_VERSION = {b"need": 2, b"receive": 3, b"unreceive": 3, b"time-period": 3}
# Of each edit that sets a value: which. Of each that puts or removes a line of a table: which, by how many words.
VALUES = {b"bitrate": "bit_rate", b"horizon": "horizon", b"sync-counter": "sync_counter"}
PUTS = {b"source": ("sources", 2), b"sink": ("sinks", 3), b"receive": ("receives", 2)}
REMOVALS = {b"unparam": "parameters", b"unsource": "sources", b"unsink": "sinks", b"unreceive": "receives"}
EVENT_WORDS = {b"set": b"%d %04X %02X %s", b"power": b"%d %s", b"nmt": b"%d %d"}

class Node(NamedTuple):
    name: bytes
    eds: bytes
    is_mandatory: bool = False

class Message(NamedTuple):
    node: int
    tpdo: int
    type: int
    inhibit: int
    event: int
    cob_id: int
    start: int = 0

class Event(NamedTuple):
    time: int
    kind: bytes                # set, power or nmt
    words: Tuple               # behind the kind: node, index, sub-index and text; node and on or off; service and node

    def node(self):
        """0 for an NMT command to all."""
        return self.words[-1 if self.kind == b"nmt" else 0]

@dataclass
class Project:
    version: int = 1
    bit_rate: int = 1000
    horizon: int = 1_000_000
    manager: Tuple[int, int, int, int] = (127, 0, 0, 500)        # number, SYNC in us, heartbeat and time-out in ms
    time: Tuple[int, int] = (0, 0)               # the period of TIME in us, and the day; 0 and 0 without TIME
    sync_counter: int = 0
    texts: Dict[bytes, List[bytes]] = field(default_factory=dict)               # the lines of each EDS
    sheets: Dict[bytes, DataSheet] = field(default_factory=dict)                # what they describe in this version
    nodes: Dict[int, Node] = field(default_factory=dict)
    parameters: Dict[Tuple[int, int, int], bytes] = field(default_factory=dict)     # by node, index and sub-index
    messages: Dict[bytes, Message] = field(default_factory=dict)
    sources: Dict[Tuple[bytes, int], Place] = field(default_factory=dict)           # by message and position
    sinks: Dict[Tuple[bytes, int, int], Place] = field(default_factory=dict)        # by message, position and node
    receives: Dict[Tuple[bytes, int], Tuple[int, int]] = field(default_factory=dict)    # by message and node: RPDO, ms
    events: Dict[int, Event] = field(default_factory=dict)

    def sheet(self, node):
        return self.sheets[self.nodes[node].eds]

    def controller(self):
        """The node that the manager runs in, or None."""
        return self.manager[0] if self.manager[0] in self.nodes else None

    def sources_of(self, message):
        return dict(sorted((key[1], place) for key, place in self.sources.items() if key[0] == message))

    def sinks_of(self, message):
        return dict(sorted((key[1:], place) for key, place in self.sinks.items() if key[0] == message))

    def receives_of(self, message):
        return dict(sorted((key[1], numbers) for key, numbers in self.receives.items() if key[0] == message))

    # ---------- edits: each judges first and changes then, so that what is refused changes nothing
    def accept(self, word, arguments):
        """The edit of that first word. The first of Range, Unknown, Taken, InUse and Limit that holds refuses it."""
        refuse_unless(self.version >= LEAST_VERSION.get(word, 1), RANGE)
        tables = [(form.table, argument) for form, argument in zip(FORMS.get(word, ()), arguments) if form.table]
        refuse_unless(all(argument in getattr(self, table) for table, argument in tables), UNKNOWN)
        if word in VALUES:
            setattr(self, VALUES[word], *arguments)
        elif word in PUTS:
            table, count = PUTS[word]
            getattr(self, table)[arguments[:count]] = arguments[count:]
        elif word in REMOVALS:
            table = getattr(self, REMOVALS[word])
            refuse_unless(arguments in table, UNKNOWN)
            del table[arguments]
        else:
            getattr(self, "edit_" + word.decode().replace("-", "_"))(*arguments)

    def edit_version(self, version):
        refuse_unless(version > 1 or not any(node.is_mandatory for node in self.nodes.values()), IN_USE)
        refuse_unless(version > 2 or not self.receives and not self.time[0] and self.controller() is None, IN_USE)
        self.version = version
        self.sheets = {name: DataSheet(sheet.content, version >= 3) for name, sheet in self.sheets.items()}

    def edit_manager(self, *numbers):
        refuse_unless(self.version >= 3 or numbers[0] not in self.nodes, TAKEN)
        self.manager = numbers

    def edit_time_period(self, period, day):
        self.time = (period, day) if period else (0, 0)

    def edit_eds(self, name, lines, content):
        sheet = DataSheet(content, self.version >= 3)
        refuse_unless(name in self.texts or len(self.texts) < MOST_TEXTS, LIMIT)
        self.texts[name], self.sheets[name] = lines, sheet

    def edit_drop_eds(self, name):
        refuse_unless(all(node.eds != name for node in self.nodes.values()), IN_USE)
        del self.texts[name], self.sheets[name]

    def edit_node(self, number, name, eds):
        refuse_unless(self.version >= 3 or number != self.manager[0], TAKEN)
        refuse_unless(all(node.name != name for other, node in self.nodes.items() if other != number), TAKEN)
        self.nodes[number] = Node(name, eds, number in self.nodes and self.nodes[number].is_mandatory)

    def edit_need(self, number, need):
        self.nodes[number] = self.nodes[number]._replace(is_mandatory=need == b"mandatory")

    def edit_drop_node(self, number):
        users = [message.node for message in self.messages.values()] + [event.node() for event in self.events.values()]
        refuse_unless(number not in users + [key[-1] for key in (*self.sinks, *self.receives)], IN_USE)
        del self.nodes[number]
        self.parameters = {key: text for key, text in self.parameters.items() if key[0] != number}

    def edit_param(self, number, index, sub, text):
        key, count = (number, index, sub), sum(each[0] == number for each in self.parameters)
        refuse_unless(key in self.parameters or count < MOST_PARAMETERS, LIMIT)
        self.parameters[key] = text

    def edit_message(self, name, node, *numbers):
        refuse_unless(name in self.messages or len(self.messages) < MOST_MESSAGES, LIMIT)
        start = self.messages[name].start if name in self.messages else 0
        self.messages[name] = Message(node, *numbers, start)

    def edit_start(self, name, start):
        self.messages[name] = self.messages[name]._replace(start=start)

    def edit_drop_message(self, name):
        del self.messages[name]
        for table in (self.sources, self.sinks, self.receives):
            for key in [key for key in table if key[0] == name]:
                del table[key]

    def edit_event(self, k, time, kind, *words):
        event = Event(time, kind, words)
        refuse_unless(event.node() in self.nodes or kind == b"nmt" and event.node() == 0, UNKNOWN)
        self.events[k] = event

    def edit_drop_event(self, k):
        del self.events[k]

    # ---------------------------------------------------------------- script
    def script(self):
        lines = [b"version %d" % self.version] if self.version > 1 else []
        lines += [b"bitrate %d" % self.bit_rate, b"horizon %d" % self.horizon, b"manager %d %d %d %d" % self.manager]
        lines += [b"time-period %d %d" % self.time] if self.time[0] else []
        lines += [b"sync-counter %d" % self.sync_counter] if self.sync_counter else []
        for name, text in sorted(self.texts.items()):
            lines += [b"eds %s %d" % (name, len(text)), *text]
        for number, node in sorted(self.nodes.items()):
            lines.append(b"node %d %s %s" % (number, node.name, node.eds))
            lines += [b"need %d mandatory" % number] if node.is_mandatory else []
        lines += [b"param %d %04X %02X %s" % (*key, text) for key, text in sorted(self.parameters.items())]
        for name, message in sorted(self.messages.items()):
            lines += self.message_lines(name, message)
        return lines + [b"event %d %d %s " % (k, event.time, event.kind) + EVENT_WORDS[event.kind] % event.words
                        for k, event in sorted(self.events.items())]

    def message_lines(self, name, message):
        lines = [b"message %s %d %d %d %d %d %03X" % (name, *message[:-1])]
        lines += [b"start %s %d" % (name, message.start)] if message.start else []
        lines += [b"source %s %d %04X %02X" % (name, k, *place) for k, place in self.sources_of(name).items()]
        lines += [b"sink %s %d %d %04X %02X" % (name, *key, *place) for key, place in self.sinks_of(name).items()]
        return lines + [b"receive %s %d %d %d" % (name, k, *numbers) for k, numbers in self.receives_of(name).items()]
