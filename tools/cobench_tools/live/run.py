"""The run of a project as the page draws it, kept by windows of ten milliseconds: what stays the same isn't made anew."""
from collections import namedtuple

from .. import boots, findings, meaning, pdo_writes, receiver_names
from ..boots import is_boot_up
from ..data_types import WHOLE
from ..picture import OTHERS, STATES, Sorts, event_flag, events_of, first_states, go_on, in_order, powers_of, told_by_node
from ..trace import has_stuff_bits
from .drawing import TextDrawing

WINDOW = 10_000         # microseconds
DIGITS = 6              # so many of the ten digits of a time are the number of its window
MOST_SORTS = 200_000    # from here on they are collected anew, as most of them are of frames that aren't there any more
NEAR = 1 << 16          # bytes in which the next window is looked for first
SHORT = 400             # bytes that are gone through line by line


class Kept:
    """A window that was drawn.

    text         its lines
    before       what the trace had told before it, and `behind` it
    window       the drawing, and `content` what goes to the page of it
    nodes        the nodes whose SDO transfers and values it goes by, or changes
    identifiers  the identifiers of which it goes by what PDOs they are
    """

    def __init__(self, text, before, behind, window, sorts):
        self.text, self.before, self.behind, self.window = text, before, behind, window
        self.content = window.content()
        self.nodes = set(window.said) | {line.identifier & 0x7F for line in window.boots if is_boot_up(line)}
        self.identifiers = window.identifiers(sorts)

    def at(self, before):
        """The same where the trace has told something else before, which it doesn't go by."""
        kept = Kept.__new__(Kept)
        kept.__dict__.update(self.__dict__, before=before)
        kept.behind = before if self.behind is self.before else tuple(map(self._changed, before, self.behind))
        return kept

    def _changed(self, before, behind):
        """What there is by nodes, with what this window leaves."""
        left = {node: behind[node] for node in self.nodes if node in behind}
        return {**{node: value for node, value in before.items() if node not in self.nodes}, **left}


class Difference:
    """What is other where the trace has told one thing, and where it has told another: of which nodes and identifiers."""

    def __init__(self, one, other):
        self.nodes, self.identifiers = set(), set()
        for first, second in zip(one, other):
            self.nodes |= {node for node in {**first, **second} if not meaning.same(first.get(node), second.get(node))}
        for node in self.nodes:
            if not meaning.same(one[0].get(node), other[0].get(node)):
                self.identifiers |= meaning.identifiers_of(node, one[0].get(node)) | meaning.identifiers_of(node, other[0].get(node))

    def matters_to(self, kept):
        """Whether a window may say something else for it."""
        return bool(self.nodes & kept.nodes or self.identifiers & kept.identifiers)


def number_at(text, place):
    """The number of the window of the line that begins there."""
    return int(text[place:place + DIGITS])


def behind(text, start, number):
    """Where the lines of a window end that begins there, in the text of a trace."""
    end = text.find(b"\n%06d" % (number + 1), start, start + NEAR) + 1
    if end:
        return end
    low, high = start, len(text)
    while high - low > SHORT:
        middle = (low + high) // 2
        line = text.find(b"\n", middle) + 1
        if 0 < line < high and number_at(text, line) <= number:
            low = line
        else:
            high = middle
    while low < len(text) and number_at(text, low) <= number:
        low = text.find(b"\n", low) + 1
    return low


def spans_of(text, kept):
    """The windows of a trace: the number and the text of each. Those that stand there as they were kept are found at once."""
    place = 0
    while place < len(text):
        number = number_at(text, place)
        known = kept.get(number)
        span = known.text if known and stands_at(text, place, known.text) else text[place:behind(text, place, number)]
        yield number, span
        place += len(span)


def stands_at(text, place, span):
    """Whether a window stands whole at a place of a trace, as this text has it."""
    end = place + len(span)
    return text.startswith(span, place) and text[end:end + DIGITS] != span[:DIGITS]


def words_of(project, devices, of_controller):
    """What of a project, of which the controller is configured so, the words of a trace depend on."""
    messages = sorted((name, each.node, each.tpdo) for name, each in project.messages.items())
    has_all_types = project.version >= WHOLE
    return (project.manager[0], project.nodes, project.texts, has_all_types, messages, receiver_names.of_project(project, devices),
            of_controller)


class Run:
    """The windows of the last trace; behind the moment to which it went those of the trace before.

    windows  what is kept of each, by number
    known    that moment: the project's horizon, or an earlier one
    sorts    the sorts of all frames so far; its rows only grow, until all is made anew, as names are others
    """

    def __init__(self):
        self.windows, self.known, self.sorts = {}, 0, Sorts()
        self._words, self._project, self._network, self._drawing = None, None, None, None
        self._told, self._count, self._gone = [], 0, []
        self._at, self._differences, self._flows = None, {}, {}

    def take(self, text, evidence, devices, known=None):
        """Takes the text of a trace, whole or to a moment: the numbers of the windows that are other than before, or are gone."""
        project = evidence.project
        of_controller = pdo_writes.of_controller(project, lambda: evidence.plan)
        before, words = self.windows, words_of(project, devices, of_controller)
        if words != self._words or len(self.sorts.rows) > MOST_SORTS:
            before, self._words = {}, words
            self._begin(project, devices, of_controller)
        self._project, self._differences = project, {}
        shown, self.windows, state, others = self.windows, {}, self._network.first, []
        for number, span in spans_of(text, shown):
            kept = before.get(number)
            if not kept or kept.text is not span or kept.before is not state:
                kept = self._kept(number, span, state, kept)
                others += [number] if self._is_other(kept, shown.get(number)) else []
            self.windows[number] = kept
            state = kept.behind
        self.known = project.horizon if known is None else known
        self.windows.update({number: each for number, each in before.items() if self.known < number * WINDOW <= project.horizon})
        return sorted(others + [number for number in shown if number not in self.windows])

    def _begin(self, project, devices, of_controller):
        """Nothing that was drawn is of use any more, as names are others."""
        self.sorts, self._gone, self._told, self._count = Sorts(), self._gone + self._told, [], 0
        self._network = meaning.Network(project, True, devices, of_controller)
        self._drawing, self._at = TextDrawing(self._network, self.sorts), None

    def _kept(self, number, text, state, kept):
        """A window of the trace: as it was kept, where it says the same, or drawn."""
        if not kept or kept.text != text or self._difference(kept.before, state).matters_to(kept):
            return self._draw(number, text, state, kept)
        return kept.at(state)

    def _difference(self, one, other):
        """What is other between these two; both are held, so that no other has its identity."""
        found = self._differences.get((id(one), id(other)))
        if not found:
            found = self._differences[id(one), id(other)] = Difference(one, other), one, other
        return found[0]

    def _is_other(self, now, before):
        """Whether the page draws a window otherwise than before."""
        return not before or now.content is not before.content and now.content != before.content

    def content(self, number):
        """What the page draws of a window, None where it is gone."""
        return self.windows[number].content if number in self.windows else None

    def boots(self):
        """The boots of each node, as boots.py has them."""
        return boots.boots_of([line for kept in self.windows.values() for line in kept.window.boots])

    def last_said(self, evidence, nodes):
        """What was last said by SDO to or by each of some nodes, as findings.py has it."""
        said = findings.said_first(nodes)
        for window in (kept.window for kept in self.windows.values()):
            for time, node, text in window.noted:
                if node in said:
                    now = said[node][None] if text is None else findings.said_without_name(evidence, node, text)
                    said[node].setdefault(time, now)
            for node in window.said.keys() & said.keys():
                said[node][None] = findings.said_without_name(evidence, node, window.said[node])
        return said

    def new_sorts(self):
        """The sorts that the page hasn't yet, as items; those that no window has any more are taken away."""
        items, at = {f"sorts/{each}": None for each in self._gone}, self._count
        rows, self._gone = self.sorts.rows[at:], []
        if rows:
            items[f"sorts/{at}"] = {"at": at, "rows": rows}
            self._told.append(at)
            self._count += len(rows)
        return items

    def _draw(self, number, text, state, kept):
        """Draws a window; what it leaves is what was there before it, or what it left before, where that is the same."""
        if self._at is not state:
            self._network.restore(state)
        drawn, left = self._drawing.window_of(number * WINDOW, text), state
        if drawn.said or drawn.boots:
            now = self._network.state()
            left = next((each for each in (state, kept and kept.behind) if each == now), now)
        self._at = left
        return Kept(text, state, left, drawn, self.sorts)

    def lanes(self):
        """The lanes, as on the page."""
        network = self._network
        found = [[node, network.name(node), network.title(node)] for node in network.lanes(set())]
        has_others = any(row[2] == OTHERS for row in self.sorts.rows)
        return found + ([[OTHERS, "others", "sender not known"]] if has_others else [])

    def about(self):
        """All of the page's content but frames: what stands in picture.py."""
        project = self._project
        events = events_of(project, project.horizon)
        return {
            "script": True, "end": project.horizon, "known": self.known, "bit": 1000 // project.bitrate, "kinds": meaning.KINDS,
            "stateNames": STATES, "lanes": self.lanes(), "states": self._states_of(events),
            "events": [event_flag(self._network, *each) for each in events],
            **({"stuffed": True} if has_stuff_bits(project) else {}),
        }

    def _states_of(self, events):
        """The states of the nodes as far as the run is known; they are worked out anew from where what changes them is other."""
        nodes, powers, found = sorted(self._project.nodes), {}, []
        for time, node, what in powers_of(self._project, events):
            powers.setdefault(time // WINDOW, []).append((time, node, what))
        numbers, states = self.windows.keys() | powers.keys(), first_states(nodes)
        flows = self._flows = {number: flow for number, flow in self._flows.items() if number in numbers}
        for number in sorted(number for number in numbers if number * WINDOW <= self.known):
            flow = flows[number] = self._flow(flows.get(number), self.windows.get(number), powers.get(number), states)
            states = flow.behind
            found += flow.changes
        return told_by_node(nodes, found)

    def _flow(self, known, kept, powers, states):
        """What becomes of the states of nodes in a window."""
        window = kept and kept.window
        if known and known.window is window and known.powers == powers and meaning.same(known.before, states):
            return known
        moments = in_order(powers or (), window.changes if window else ())
        return Flow(window, powers, states, *go_on(states, moments))


Flow = namedtuple("Flow", "window powers before behind changes")
