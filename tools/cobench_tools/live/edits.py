"""The edits that lead from one project to another, both as cobench's `project` prints them.

A project is kept as its commands by what they set: ("node", b"5") has the line `node 5 pump drive`. What is
dropped goes first, and what hangs on it before it; then settings, data sheets and nodes; then what needs those.
No edit of the order is refused (docs/rules/commands.md).
"""
import functools

from .. import script
from ..project import CONTROLLERS

# How many words behind the first one say what a command sets.
KEY_WORDS = {b"version": 0, b"bitrate": 0, b"horizon": 0, b"manager": 0, b"time-period": 0, b"sync-counter": 0, b"eds": 1,
             b"node": 1, b"need": 1, b"param": 3, b"message": 1, b"start": 1, b"source": 2, b"sink": 3, b"receive": 2, b"event": 1}
OF_A_MESSAGE = (b"start", b"source", b"sink", b"receive")

# Edits by which no file of a node can become another, and those of the files of one node, which they name (docs/rules/commands.md).
OF_NO_FILE, OF_ONE_NODE = (b"event", b"drop-event", b"horizon"), (b"param", b"unparam")
MOST_KEYS = 1 << 16     # so many lines are known at most
NEVER = 1 << 32         # a moment behind all horizons


def items_of(lines):
    """The commands of a project, whole, by what they set."""
    items, place = {}, 0
    while place < len(lines):
        key, count = key_of(lines[place])
        items[key] = b"\n".join(lines[place:place + 1 + count]) + b"\n"
        place += 1 + count
    return items


@functools.lru_cache(maxsize=MOST_KEYS)
def key_of(line):
    """What a command that `project` prints sets, and how many lines its block has."""
    words = line.split(b" ")
    return tuple(words[:1 + KEY_WORDS[words[0]]]), int(words[2]) if words[0] == b"eds" else 0


def first_project():
    """The project of a session that has no command yet."""
    return {(b"bitrate",): b"bitrate 1000\n", (b"horizon",): b"horizon 1000000\n", (b"manager",): b"manager 127 0 0 500\n"}


def words_of(text):
    return text[:text.index(b"\n")].split(b" ")


def node_of_event(text):
    """The node that an event is of, as cobench counts it: one to all nodes is of none."""
    words = words_of(text)
    return words[5] if words[3] == b"nmt" else words[4]


def nodes_of_files(made):
    """The nodes whose files some edits can change, None for all."""
    words = [words_of(edit) for edit in made]
    words = [each for each in words if each[0] not in OF_NO_FILE]
    return {each[1] for each in words} if all(each[0] in OF_ONE_NODE for each in words) else None


def moment_of(text):
    """The first moment of a run that a command of an event or of the horizon says something of."""
    words = words_of(text)
    return int(words[1] if words[0] == b"horizon" else words[2])


def first_moment(made, old, new, has_other_files):
    """The first moment of a run that edits from one project to another can change: 0 but where all are of events, of the
    horizon, and of parameters by which no file is another, as those change the run by the files alone.
    """
    words = [words_of(edit) for edit in made]
    if has_other_files or nodes_of_files(made) is None:
        return 0
    keys = [(b"horizon",) if each[0] == b"horizon" else (b"event", each[1]) for each in words if each[0] in OF_NO_FILE]
    return min((moment_of(project[key]) for key in keys for project in (old, new) if key in project), default=NEVER)


def has_controllers(project):
    """Whether a node may have the manager's number."""
    return int(words_of(project.get((b"version",), b"version 1\n"))[1]) >= CONTROLLERS


class Way:
    """The way from one project to another.

    now   the project as the edits so far have made it
    new   the project that is to be made
    made  the edits so far
    """

    def __init__(self, old, new):
        self.now, self.new, self.made = dict(old), new, []

    # Edits.

    def set(self, key, text=None):
        """Sets what the new project has, or another text."""
        text = self.new[key] if text is None else text
        if self.now.get(key) != text:
            self.now[key] = text
            self.made.append(text)

    def drop(self, key, text, *with_it):
        """Takes something away by an edit; what is gone with it needs no edit of its own."""
        for each in (key,) + with_it:
            self.now.pop(each, None)
        self.made.append(text)

    def keys(self, *kinds):
        """What the project has now of some kinds."""
        return [key for key in self.now if key[0] in kinds]

    def parts(self, *kinds):
        """What the project has now of some kinds, by the message or node that it is of."""
        found = {}
        for key in self.keys(*kinds):
            found.setdefault(key[1], []).append(key)
        return found

    def gone(self, *kinds):
        """What of some kinds the new project hasn't."""
        return [key for key in self.keys(*kinds) if key not in self.new]

    def wanted(self, *kinds):
        """What the new project has of some kinds, and isn't so now."""
        return [key for key in self.new if key[0] in kinds and self.now.get(key) != self.new[key]]

    # What goes.

    def lost_nodes(self):
        return {key[1] for key in self.gone(b"node")}

    def drop_events(self):
        lost = self.lost_nodes()
        for key in self.keys(b"event"):
            if key not in self.new or node_of_event(self.now[key]) in lost:
                self.drop(key, b"drop-event %s\n" % key[1])

    def drop_messages(self):
        lost, parts = self.lost_nodes(), self.parts(*OF_A_MESSAGE)
        for key in self.keys(b"message"):
            if key not in self.new or words_of(self.now[key])[2] in lost:
                self.drop(key, b"drop-message %s\n" % key[1], *parts.get(key[1], ()))

    def drop_parts(self):
        for key in self.gone(b"receive"):
            self.drop(key, b"unreceive %s %s\n" % key[1:])
        for key in self.gone(b"sink"):
            self.drop(key, b"unsink %s %s %s\n" % key[1:])
        for key in self.gone(b"source"):
            self.drop(key, b"unsource %s %s\n" % key[1:])
        for key in self.gone(b"start"):
            self.drop(key, b"start %s 0\n" % key[1])

    def drop_nodes(self):
        lost, parts = self.lost_nodes(), self.parts(b"param", b"need")
        for key in self.gone(b"param"):
            if key[1] not in lost:
                self.drop(key, b"unparam %s %s %s\n" % key[1:])
        for key in self.gone(b"need"):
            if key[1] not in lost:
                self.drop(key, b"need %s optional\n" % key[1])
        for node in sorted(lost):
            self.drop((b"node", node), b"drop-node %s\n" % node, *parts.get(node, ()))

    # Settings, data sheets and nodes.

    def settings(self):
        """The settings; the manager's number is another one before a version in which no node may have it."""
        for key in self.wanted(b"manager") if has_controllers(self.now) and not has_controllers(self.new) else []:
            self.set(key)
        for name, first in ((b"time-period", b"time-period 0 0\n"), (b"version", b"version 1\n"),
                            (b"sync-counter", b"sync-counter 0\n")):
            if (name,) in self.gone(name):
                self.drop((name,), first)
        for key in self.wanted(b"version", b"bitrate", b"horizon", b"time-period", b"sync-counter", b"manager"):
            self.set(key)

    def used_sheets(self):
        return {words_of(self.now[key])[3] for key in self.keys(b"node")}

    def drop_sheets(self):
        """Takes away the data sheets that the new project hasn't, and that no node uses now."""
        used = self.used_sheets()
        for key in self.gone(b"eds"):
            if key[1] not in used:
                self.drop(key, b"drop-eds %s\n" % key[1])

    def point(self, key, sheet, name=None):
        """Has a node use a data sheet, under its name of now or another."""
        words = words_of(self.now[key])
        self.set(key, b"node %s %s %s\n" % (key[1], words[2] if name is None else name, sheet))

    def make_room(self):
        """Where all data sheets are there that can be, has the nodes of one that goes use another, and drops it."""
        if len(self.keys(b"eds")) < script.MOST_SHEETS:
            return
        going = self.gone(b"eds")[0]
        other = next(key for key in self.keys(b"eds") if key != going)
        for key in self.keys(b"node"):
            if words_of(self.now[key])[3] == going[1]:
                self.point(key, other[1])
        self.drop(going, b"drop-eds %s\n" % going[1])

    def sheets(self):
        self.drop_sheets()
        for key in self.wanted(b"eds"):
            if key not in self.now:
                self.make_room()
            self.set(key)
            for node in self.keys(b"node"):
                if words_of(self.new[node])[3] == key[1]:
                    self.point(node, key[1])
            self.drop_sheets()
        for node in self.keys(b"node"):
            self.point(node, words_of(self.new[node])[3])
        self.drop_sheets()

    def names(self):
        """The names of the nodes that are there: each as soon as no other has it, by a name of no node where they go round."""
        while True:
            waiting = [key for key in self.keys(b"node") if self.now[key] != self.new[key]]
            if not waiting:
                return
            held = {words_of(self.now[key])[2] for key in self.keys(b"node")}
            free = [key for key in waiting if words_of(self.new[key])[2] not in held]
            for key in free[:1] or waiting[:1]:
                name = words_of(self.new[key])[2] if free else self.unused_name(held)
                self.point(key, words_of(self.new[key])[3], name)

    def unused_name(self, held):
        wanted = {words_of(text)[2] for key, text in self.new.items() if key[0] == b"node"}
        return next(name for name in (b"node_%d" % number for number in range(1000)) if name not in held | wanted)

    def rest(self):
        """New nodes, and all that needs nodes and data sheets."""
        for kinds in ((b"node",), (b"need",), (b"param",), (b"message",), OF_A_MESSAGE, (b"event",)):
            for key in self.wanted(*kinds):
                self.set(key)


def edits(old, new):
    """The edits that make the project `new` of the project `old`, each whole."""
    other = [key for key in new if old.get(key) != new[key]]
    if old.keys() <= new.keys() and not any(key[0] in (b"eds", b"node") for key in other):
        old, new = {key: old[key] for key in other if key in old}, {key: new[key] for key in other}
    way = Way(old, new)
    for step in (way.drop_events, way.drop_messages, way.drop_parts, way.drop_nodes, way.settings, way.sheets, way.names, way.rest):
        step()
    return way.made
