"""What may stand at the cursor: commands, names, objects of the node's data sheet, values by type and limits."""
from __future__ import annotations

import itertools
import os
import re

from .. import safe_text, values
from ..data_types import BOOLEAN, are_unlike, type_name
from ..forms import CHOICES, FORMS, usage
from ..limits import LIMITS
from ..meaning import SERVICES
from ..project import CONTROLLERS, RATES
from ..wiring import RPDO, TPDO, pdo_numbers
from . import command_words, entries
from .asked import AskedPlace, Params, Server
from .outline import Row, kinds_of, number
from .paths import SHEETS, is_sheet

TRIGGERS = [" ", "<"]
KEYWORD, VARIABLE, FIELD, VALUE, FILE, STRUCT, EVENT = 14, 6, 5, 12, 17, 22, 23
MOST_SHOWN = 100
TYPES = ((0, "at SYNC, when changed"), (1, "at each SYNC"), (2, "at each 2nd SYNC"),
         (254, "when changed (vendor's event)"), (255, "when changed (profile's event)"))


class Cursor:
    """The word that is being typed: what it is by its place, and what the words before it say.

    row   the words before it, with it
    kind  what may stand there, as the form of the command has it
    """

    def __init__(self, asked):
        self.asked, self.state, self.number = asked, asked.state, asked.number
        before = asked.text[:asked.letter]
        self.start = re.search("[^ \t]*\\Z", before).start()
        self.typed = before[self.start:].lower()
        self.words = before[:self.start].split() + ["_"]
        self.kind = self._kind()
        self.row = Row(" ".join(self.words))

    def _kind(self):
        if len(self.words) == 1:
            return "COMMAND"
        if len(self.words) == 4 and self.words[0] == "event":
            return "WHAT"
        if self.words[0] == "eds" and len(self.words) == 3:
            return "FILE"
        form = kinds_of(self.words)
        return form[len(self.words) - 1] if self.words[0] in FORMS else "MORE"

    def may_be(self, found):
        """Whether an item has what is typed so far: its letters in their order, as editors look for them."""
        letters = iter(f"{found['label']} {found.get('filterText', '')}".lower())
        return all(letter in letters for letter in self.typed)

    @property
    def name(self):
        return self.words[0]

    @property
    def project(self):
        return self.state.project


def completion(server: Server, params: Params) -> Params:
    """What may stand at a place, as a list of the protocol: of many those first that begin as what is typed."""
    asked = AskedPlace(server, params)
    if is_sheet(asked.path) or not asked.is_command():
        return listed([])
    cursor = Cursor(asked)
    make = MAKERS.get(cursor.kind)
    if make is None or cursor.state is None and cursor.kind not in WITHOUT_STATE:
        return listed([])
    where = asked.range(asked.number, cursor.start, asked.letter)
    found = list(itertools.islice(filter(cursor.may_be, make(cursor)), MOST_SHOWN + 1))
    return listed([{**each, "sortText": f"{place:05}", "textEdit": {"range": where, "newText": each.pop("insert")}}
                   for place, each in enumerate(found)])


def listed(items):
    """The first items; the editor asks again once more is typed, where there are more."""
    return {"isIncomplete": len(items) > MOST_SHOWN, "items": items[:MOST_SHOWN]}


def item(label, kind, detail="", more="", insert=None, also=""):
    """An item: what is inserted, what it is, in a line and in Markdown, and other words by which it is found."""
    made = {"label": label, "kind": kind, "insert": label if insert is None else insert}
    made.update({"detail": safe_text.readable(detail)} if detail else {})
    made.update({"documentation": {"kind": "markdown", "value": more}} if more else {})
    made.update({"filterText": f"{made['insert']} {also}"} if also else {})
    return made


# Commands, choices and files.

def commands(cursor):
    for name in FORMS:
        yield item(name, KEYWORD, usage(name, FORMS[name].split()), command_words.MEANINGS.get(name, ""))


def choices(cursor):
    return [item(each, VALUE) for each in CHOICES[cursor.kind]]


def kinds_of_events(cursor):
    forms = ("set", "ID INDEX SUB TEXT"), ("power", "ID on|off"), ("nmt", "CMD ID")
    return [item(each, KEYWORD, form) for each, form in forms]


def rates(cursor):
    return [item(str(rate), VALUE, "kbit/s") for rate in RATES]


def services(cursor):
    return [item(str(service), VALUE, what) for service, what in SERVICES.items()]


def versions(cursor):
    return [item("1", VALUE, "each node is started by itself"), item("2", VALUE, "the network is started as a whole"),
            item("3", VALUE, "PDOs as vendors make them; unused ones are off")]


def files(cursor):
    """The data sheets of the script's folder, behind `<`."""
    return [item(f"<{name}", FILE) for name in names_in(os.path.dirname(cursor.asked.path), SHEETS)]


def names_in(folder, ends):
    try:
        return sorted(name for name in os.listdir(folder or ".") if name.lower().endswith(ends))
    except OSError:
        return []


# Names.

def sheets(cursor):
    for name in sorted(cursor.project.texts):
        info = cursor.state.evidence.sheet(name).sections.get("deviceinfo", {})
        yield item(name, STRUCT, info.get("productname", ""))


def names(cursor):
    """Names of what is there; for what is new its next number's."""
    if cursor.name in ("message", "drop-message"):
        return messages(cursor)
    return sheets(cursor) if cursor.name in ("eds", "drop-eds") else []


def messages(cursor):
    for name, message in sorted(cursor.project.messages.items()):
        yield item(name, VARIABLE, f"{cursor.state.evidence.node_name(message.node)}, TPDO {message.tpdo}")


def nodes(cursor):
    """The numbers of nodes, which are found by their names too; for a new node the least that is free comes first."""
    project = cursor.project
    if cursor.name == "node":
        free = next((each for each in range(1, 128) if each not in project.nodes and each != project.manager[0]), None)
        yield from [item(str(free), VALUE, "free")] if free else []
        if project.version >= CONTROLLERS and project.controller is None:
            yield item(str(project.manager[0]), VALUE, "the controller, which the manager runs in")
    for node, (name, eds) in sorted(project.nodes.items()):
        if may_be_named(cursor, node):
            yield item(str(node), VARIABLE, f"{name} ({eds})", also=name)


def may_be_named(cursor, node):
    """Whether a node may stand in a command: of a sink all but the sender, of a receive those that take the message."""
    message = cursor.project.messages.get(cursor.row.word("MESSAGE"))
    if message is None or cursor.name not in ("sink", "receive", "unreceive"):
        return True
    known = {"receive": {taker for _, taker in message.sinks}, "unreceive": set(message.receives)}
    return node in known[cursor.name] if cursor.name in known else node != message.node


def all_or_nodes(cursor):
    yield item("0", VALUE, "all nodes")
    yield from nodes(cursor)


def events(cursor):
    project = cursor.project
    if cursor.name == "event":
        yield item(str(next(each for each in range(1, 10_002) if each not in project.events)), VALUE, "free")
    for key, event in sorted(project.events.items()):
        yield item(str(key), EVENT, f"{event.kind} at {event.time} us")


# Messages.

def positions(cursor):
    """Where a source may stand: the next free position first; where a sink may: at the sources."""
    message = cursor.project.messages.get(cursor.row.word("MESSAGE"))
    if message is None:
        return
    if cursor.name == "source":
        yield item(str(next(each for each in range(1, 66) if each not in message.sources)), VALUE, "free")
    for place, key in sorted(message.sources.items()):
        yield item(str(place), VALUE, cursor.state.evidence.entry_name(message.node, key))


def tpdos(cursor):
    """The TPDOs of a node: those first that no message sends."""
    node, project = number(cursor.words[2]), cursor.project
    if node not in project.nodes:
        return
    used = {message.tpdo: name for name, message in project.messages.items()
            if message.node == node and name != cursor.words[1]}
    known = pdo_numbers(cursor.state.evidence.device(node), TPDO)
    yield from (item(str(each), VALUE, "free") for each in known if each not in used)
    yield from (item(str(each), VALUE, f"sends {used[each]}") for each in known if each in used)


def rpdos(cursor):
    """The RPDOs of a node, and which message has each."""
    node, state = number(cursor.words[2]), cursor.state
    yield item("0", VALUE, "the plan gives one")
    if node not in cursor.project.nodes:
        return
    taken = {each.rpdos[node][0]: name for name, each in state.evidence.plan.messages.items() if not each.faults and node in each.rpdos}
    for each in pdo_numbers(state.evidence.device(node), RPDO):
        yield item(str(each), VALUE, f"takes {taken[each]}" if each in taken else "free")


def types(cursor):
    return [item(str(kind), VALUE, words) for kind, words in TYPES]


def none_or_limits(cursor):
    low, high = LIMITS[cursor.kind]
    unit = {"INHIBIT": "100 us", "EVENT": "ms", "MS": "ms"}[cursor.kind]
    return [item("0", VALUE, f"none; {low} to {high:,} in {unit}")]


def identifiers(cursor):
    return [item("0", VALUE, "the plan gives one")]


# Entries.

def fitting(cursor):
    """The entries of the row's node that may stand in it."""
    node = entries.node_of(cursor.row, cursor.project)
    if node is None:
        return
    device, source = cursor.state.evidence.device(node), source_of(cursor)
    for key in ((index, sub) for index, subs_of in device.subs.items() for sub in subs_of):
        entry = device.entries[key]
        if entries.fits(cursor.row, entry, key) and (source is None or can_meet(source, entry)):
            yield key, entry


def can_meet(source, sink):
    """Whether a sink can take what a source has."""
    return source.bits == sink.bits and not are_unlike(source.kind, sink.kind)


def source_of(cursor):
    """The entry of the source that a sink takes, None where that isn't known."""
    message = cursor.project.messages.get(cursor.row.word("MESSAGE")) if cursor.name == "sink" else None
    key = message.sources.get(number(cursor.row.word("POS"))) if message else None
    entry = cursor.state.evidence.device(message.node).entries.get(key) if key else None
    return entry if entry and entry.bits else None


def indexes(cursor):
    """The objects of which an entry may stand there."""
    seen = set()
    for (index, sub), entry in fitting(cursor):
        if index not in seen:
            seen.add(index)
            name = entry.name.partition(": ")[0] if sub else entry.name
            yield entry_item(f"{index:04X}", entry, name)


def subs(cursor):
    index, _ = entries.key_of(cursor.row)
    for key, entry in fitting(cursor):
        if key[0] == index:
            yield entry_item(f"{key[1]:X}", entry, entry.name)


def entry_item(label, entry, name):
    limits = entries.limits_text(entry)
    more = [f"default: {safe_text.markdown(entry.default)}"] if entry.default else []
    more += [f"limits: {safe_text.markdown(limits)}"] if limits else []
    return item(label, FIELD, f"{name} · {entries.type_text(entry)}".lstrip(" ·"), "  \n".join(more), also=name)


def texts(cursor):
    """Values of the entry's type: its default and its limits."""
    node = entries.node_of(cursor.row, cursor.project)
    key = entries.key_of(cursor.row)
    entry = cursor.state.evidence.device(node).entries.get(key) if node is not None else None
    if entry is None:
        return
    known = [(entry.default, "default"), (entry.low, "low limit"), (entry.high, "high limit")]
    known += [("0", "off"), ("1", "on")] if entry.kind == BOOLEAN else []
    known += watches(cursor, node) if key[0] == 0x1016 and key[1] else []
    seen = set()
    for text, what in known:
        if text and text not in seen and entry.is_modelled and values.data_of(entry.kind, text, node) is not None:
            seen.add(text)
            yield item(safe_text.readable(text), VALUE, f"{what} · {type_name(entry.kind)}")


def watches(cursor, node):
    """The values of a heartbeat consumer that watch another node, without the time."""
    return [(f"0x{other:04X}0000", f"watch {name}: add its milliseconds")
            for other, (name, _) in sorted(cursor.project.nodes.items()) if other != node]


MAKERS = {
    "COMMAND": commands, "WHAT": kinds_of_events, "FILE": files, "NEED": choices, "ON_OFF": choices, "RATE": rates,
    "CMD": services, "VERSION": versions, "EDS": sheets, "NAME": names, "MESSAGE": messages, "ID": nodes,
    "TO": all_or_nodes, "K": events, "POS": positions, "TPDO": tpdos, "TYPE": types, "INHIBIT": none_or_limits,
    "EVENT": none_or_limits, "RPDO": rpdos, "MS": none_or_limits, "COB": identifiers, "INDEX": indexes, "SUB": subs,
    "TEXT": texts,
}
WITHOUT_STATE = "COMMAND", "WHAT", "FILE", "NEED", "ON_OFF", "RATE", "CMD", "VERSION", "TYPE", "INHIBIT", "EVENT", "MS", "COB"
