"""What `timeline` draws: the lanes, frames, flags and states of a trace.

Content of the page (JSON):
  title, script   what stands above; whether the project is known
  end, bit        the last moment in microseconds; microseconds a bit
  kinds           the names of the kinds of frames
  lanes           [key, name, title] of each, the manager's first, which is the controller's where there is one
  stateNames      the names of the states
  states          by the key of a lane: [time, state] at each change
  sorts           what frames are: [identifier, kind, key of the lane, bytes, text], and behind these the bits of what isn't
                  of the network; the text of a PDO is [subject, [label, bits, form] of each value], or null for these
                  where they aren't known
  windows         spans of the run: at (its start), and of its frames time (since the one before, or the
                  start), sort and data (hexadecimal digits, one frame behind the other); and its flags; beside a
                  plan the places of the frames that the other run doesn't have, as other
  events          the flags of the scenario; a flag is [time, key of the lane, kind, label, all of its words]
"""
from operator import itemgetter, sub

from . import meaning, safe_text
from .boots import is_boot_up
from .data_types import BOOLEAN, REALS, SIGNED
from .trace import Foreign, Note, is_stuffed

OTHERS = -1
FIRST_STATE = "pre-operational"
STATES = ("off", "stopped", "operational", "pre-operational", "not heard", "unknown")
BY_BYTE = {4: "stopped", 5: "operational", 127: "pre-operational"}
BY_SERVICE = {1: "operational", 2: "stopped", 128: "pre-operational", 129: "pre-operational", 130: "pre-operational"}


def form_of(kind, bits):
    """How a value of a data type is shown that has so many bits, as `device.value_at` does."""
    if bits == REALS.get(kind):
        return "real"
    return "signed" if kind in SIGNED else "bit" if kind == BOOLEAN else "unsigned"


def entry_text(entry):
    return f"{entry[0]:04X}h" + (f":{entry[1]:02X}" if entry[1] else "")


class Sorts:
    """The table of what frames are; each different one stands once."""

    def __init__(self):
        self.rows, self._places = [], {}

    def place_of(self, line, said):
        """The place of a frame's row."""
        identifier = line.number if isinstance(line, Foreign) else line.identifier
        key = identifier, said.kind, OTHERS if said.sender is None else said.sender, len(line.data), text_of(said)
        place = self._places.setdefault(key, len(self.rows))
        if place == len(self.rows):
            bits = [line.bits] if isinstance(line, Foreign) else []
            self.rows.append([key[0] or 0, meaning.KINDS.index(said.kind)] + list(key[2:]) + bits)
        return place


def text_of(said):
    """What all frames of a sort say: of a PDO its subject, and the parts of its values, None where they aren't known."""
    if said.kind != meaning.PDO:
        return safe_text.readable(said.first)
    parts = said.parts and tuple((label, bits, form_of(kind, bits)) for label, bits, kind in said.parts)
    return said.subject, parts


def flag_of(line, said):
    """The flag of a note or an emergency message, else None."""
    if isinstance(line, Note):
        return [line.time, line.node, line.what.split(" ")[0], line.what, line.what]
    if said.kind == meaning.EMCY:
        words = said.text[said.text.index("EMCY"):]
        kind = "recovered" if line.data[:2] == b"\0\0" else "emergency"
        return [line.time, said.node, kind, words.split(", error register")[0], words]
    return None


def state_change(line, said):
    """The node that has another state after a line, as far as it tells, and the state: node 0 stands for all."""
    if said.kind == meaning.NMT and line.data[0] in BY_SERVICE:
        return said.node or 0, BY_SERVICE[line.data[0]]
    if said.kind == meaning.HEARTBEAT:
        return said.node, BY_BYTE.get(line.data[0], "pre-operational")
    if said.kind == meaning.EMCY and line.data[:2] == b"\x30\x81":
        return said.node, "pre-operational"
    return None


class Window:
    """A span of a run.

    at       its start in microseconds
    times, sorts, data, flags   as its part of the page has them
    changes  what changes the states of nodes: time, node (0 for all) and state
    boots    its boot-up messages and notes
    said     what was said last by SDO to or by each node
    noted    of each note its time and node, and what had been said by SDO in the span before it, else None
    """

    def __init__(self, at):
        self.at, self.times, self.sorts, self.data, self.flags, self.changes = at, [], [], [], [], []
        self.boots, self.said, self.noted = [], {}, []

    def fill(self, times, found):
        """Has these frames: of each its time, and its sort, what it changes, and its bytes."""
        self.times = list(map(sub, times, [self.at] + times))
        self.sorts = [each[0] for each in found]
        self.changes = [(time,) + each[1] for time, each in zip(times, found) if each[1]]
        self.data = [each[2] for each in found]

    def tell(self, line, said):
        """A line tells more than its frame: by a flag, of a boot, or by SDO."""
        flag = flag_of(line, said)
        self.flags += [flag] if flag else []
        if said.kind == meaning.SDO:
            self.said[said.node] = said.text
        elif said.kind == meaning.NOTE:
            self.boots.append(line)
            self.noted.append((line.time, line.node, self.said.get(line.node)))
        elif is_boot_up(line):
            self.boots.append(line)

    def identifiers(self, sorts):
        """Those of its frames."""
        return {sorts.rows[place][0] for place in set(self.sorts)}

    def content(self):
        return {"at": self.at, "time": self.times, "sort": self.sorts, "data": "".join(self.data), "flags": self.flags}


class Drawing:
    """Draws a trace, window by window.

    nodes   the nodes that were told of so far
    others  whether a frame came of which the sender isn't known
    """

    def __init__(self, network, sorts):
        self.network, self.sorts = network, sorts
        self.nodes, self.others, self._known = set(), False, {}

    def window(self, at, lines):
        """The window of the next lines."""
        window = Window(at)
        found = [(line.time, self.take(window, line)) for line in lines]
        window.fill([time for time, each in found if each], [each for _, each in found if each])
        return window

    def take(self, window, line):
        """Takes the next line; of a frame its sort, what it changes, and its bytes; None of a note."""
        if isinstance(line, Note):
            self.tell(window, line, self.network.of(line))
            return None
        if isinstance(line, Foreign):
            return self.recognise(window, line) + (line.data.hex().upper(),)
        return (self.known(line.identifier, line.data) or self.recognise(window, line)) + (line.data.hex().upper(),)

    def known(self, identifier, data):
        """The sort of a frame that was there already, and what it changes: it says the same again until PDOs change."""
        if self.network.touched:
            self.forget()
        known = self._known.get(identifier)
        return known and (known.get(len(data)) or known.get(data))

    def forget(self):
        """It may have changed what PDOs some identifiers are: nothing of these is known any more."""
        for identifier in self.network.touched:
            self._known.pop(identifier, None)
        self.network.touched.clear()

    def recognise(self, window, line):
        """What a frame is that wasn't there before; it is remembered where another of its kind says the same."""
        said = self.network.of(line)
        found = self.sorts.place_of(line, said), self.change(line, said)
        self.tell(window, line, said)
        if said.kind == meaning.PDO:
            self._known.setdefault(line.identifier, {})[len(line.data)] = found
        elif said.kind in (meaning.SYNC, meaning.HEARTBEAT, meaning.NMT) and not is_boot_up(line):
            self._known.setdefault(line.identifier, {})[line.data] = found
        return found

    def change(self, line, said):
        """What a frame changes: the manager's heartbeat tells nothing of the controller, unless it was recorded on a machine."""
        is_of_manager = said.kind == meaning.HEARTBEAT and said.node == self.network.manager and not is_boot_up(line)
        return None if is_of_manager and not self.network.is_recorded else state_change(line, said)

    def tell(self, window, line, said):
        """What a line tells besides its frame."""
        window.tell(line, said)
        self.nodes |= {said.node, said.sender} - {None}
        self.others = self.others or said.sender is None


def event_flag(network, key, event):
    """The flag of an event, in the lane of its node or, for an NMT command, of the manager."""
    node, label = event.node, f"power {event.what}"
    words = label
    if event.kind == "nmt":
        service = meaning.SERVICES.get(int(event.what), event.what)
        node, label = network.manager, f"{service} {network.name(event.node) if event.node else 'all nodes'}"
        words = label
    elif event.kind == "set":
        entry, value = entry_text(event.entry), safe_text.readable(event.what)
        label = f"{entry} := {value}"
        words = f"{entry}{network.name_text(node, event.entry)} := {value}"
    nothing = ", which does nothing" if network.project.is_idle(event) else ""
    return [event.time, node, "event", label, f"event {key}: {words}{nothing}"]


def moments_of(project, events, windows):
    """What may change the states of nodes, in its order: time, node (0 for all) and state; on and off are those of power."""
    return in_order(powers_of(project, events), [change for window in windows for change in window.changes])


def powers_of(project, events):
    """The times at which power is switched, with the node, and on or off."""
    return [(event.time, event.node, event.what) for _, event in events if event.kind == "power" and not project.is_idle(event)]


def in_order(powers, changes):
    """The changes of power and those that frames tell, by time; those of power first."""
    return sorted([*powers, *changes], key=itemgetter(0))


def states_of(nodes, moments):
    """For each node the times at which its state changes, and the states; one without power has no other."""
    return told_by_node(nodes, go_on(first_states(nodes), moments)[1])


def first_states(nodes):
    return dict.fromkeys(nodes, FIRST_STATE)


def told_by_node(nodes, changes):
    """For each node the times of its changes, and the states, from the start on."""
    found = {node: [[0, STATES.index(FIRST_STATE)]] for node in nodes}
    for time, node, state in changes:
        found[node].append([time, STATES.index(state)])
    return found


def go_on(states, moments):
    """The states of nodes behind some moments, and the changes on the way: time, node and state of each."""
    now, changes = dict(states), []
    for time, node, state in moments:
        for each in list(now) if node == 0 else [node]:
            new = state_after(now.get(each), state)
            if new != now.get(each, new):
                now[each] = new
                changes.append((time, each, new))
    return (now if changes else states), changes


def state_after(now, state):
    """The state of a node that is told a state, or that its power is on or off."""
    if (now == "off") != (state == "on"):
        return now
    return FIRST_STATE if state == "on" else state


def events_of(project, end):
    """The events of a scenario that come until then, by time and number."""
    events = sorted(project.events.items(), key=lambda each: (each[1].time, each[0])) if project else []
    return [(key, event) for key, event in events if event.time <= end]


class Picture:
    """The content of the page, of what view.py shows."""

    def __init__(self, shown):
        self.project, self.bit, self.end = shown.project, shown.bit, shown.end
        self.counted = {"stuffed": True} if is_stuffed(shown.lines) else {}
        self.network, self.sorts = shown.network(with_names=True), Sorts()
        self.drawing = Drawing(self.network, self.sorts)
        self.window = self.drawing.window(0, shown.lines)
        self.events = events_of(shown.project, self.end) if not shown.plan else []

    def lanes(self):
        """The lanes, the manager's first."""
        network = self.network
        lanes = [[node, network.name(node), network.title(node)] for node in network.lanes(self.drawing.nodes)]
        return lanes + ([[OTHERS, "others", "sender not known"]] if self.drawing.others else [])

    def content(self, title):
        return {
            "title": safe_text.readable(title), "script": self.project is not None, "end": self.end, "bit": self.bit,
            "kinds": meaning.KINDS, "stateNames": STATES, "lanes": self.lanes(),
            "states": states_of(self.network.nodes(self.drawing.nodes), moments_of(self.project, self.events, [self.window])),
            "windows": [self.window.content()], "sorts": self.sorts.rows,
            "events": [event_flag(self.network, *each) for each in self.events], **self.counted,
        }
