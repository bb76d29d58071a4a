"""The timeline of a log beside the plan: each recorded lane above the planned one, and what isn't as planned as flags.

It is what picture.py draws, twice: times are those of the planned run, shifted so that the first of all is 0.
"""
from .. import meaning, recording, safe_text
from ..picture import OTHERS, STATES, Drawing, Sorts, event_flag, events_of, moments_of, states_of
from ..trace import is_stuffed
from .compared import mark_others
from .heard import Heard

MOST_FRAMES = 1_000_000
PLANNED = 1_000     # what the keys of planned lanes have above those of recorded ones


class Recorded:
    """Draws the frames of a log as it is read, up to the first million.

    windows  a span for each block, with times of the log
    heard    when each node was heard, and which states that tells; see heard.py
    left     how many frames aren't drawn
    """

    def __init__(self, plan, tolerance):
        self.plan, self.network, self.sorts = plan, recording.network_of(plan, with_names=True), Sorts()
        self.drawing, self.windows, self.count, self.left, self.begin = Drawing(self.network, self.sorts), [], 0, 0, None
        self.heard = Heard(plan, tolerance)

    def take(self, block):
        """Takes a block of the log."""
        rows = block.rows[:max(MOST_FRAMES - self.count, 0)]
        cut = len(block.rows) - len(rows)
        lines = list(recording.lines_of_block(rows, () if cut else block.aside, 0))
        self.left, self.count = self.left + cut, self.count + len(lines)
        if not lines:
            return
        if self.begin is None:
            self.begin = lines[0].time
        self.heard.take(rows)
        self.windows.append(self.drawing.window(lines[0].time, lines))
        self.windows[-1].end = lines[-1].time


class Overlay:
    """The content of the page of a timeline; see picture.py."""

    def __init__(self, recorded, judge, zero, findings):
        self.recorded, self.plan, self.judge = recorded, recorded.plan, judge
        self.findings, self.network = findings, recorded.network
        planned = meaning.Network(self.plan.project, with_names=True)
        self.sorts = Sorts()
        self.drawing = Drawing(planned, self.sorts)
        self.window = self.drawing.window(0, self.plan.lines)
        start = recorded.begin - zero
        self.shift = max(-start, 0)                 # what the times of the planned run are moved by
        self.offset = zero - self.shift             # what those of the log are moved back by
        self.end = max(recorded.windows[-1].end - self.offset, self.plan.frames[-1][0] + self.shift if self.plan.frames else 0)

    def moved(self, windows, by):
        """Windows with all of their times moved."""
        for window in windows:
            content = window.content()
            yield {**content, "at": content["at"] + by, "flags": [[time + by, *rest] for time, *rest in content["flags"]]}

    def told(self):
        """The nodes that both have told of."""
        return self.recorded.drawing.nodes | self.drawing.nodes

    def nodes(self):
        """The nodes of both that have a state, by number."""
        return self.network.nodes(self.told())

    def lanes(self):
        """The lanes: each recorded one, and below it the planned one."""
        lanes = []
        for node in self.network.lanes(self.told()):
            name, title = self.network.name(node), self.network.title(node) or f"node {node}"
            lanes.append([node, name, title])
            if node in self.plan.project.nodes or node == self.plan.manager:
                lanes.append([PLANNED + node, name, f"planned, node {node}", True])
        others = self.recorded.drawing.others or any(self.lane_of(cause) == OTHERS for cause, _ in self.findings)
        return lanes + ([[OTHERS, "others", "sender not known"]] if others else [])

    def lane_of(self, cause):
        """The lane of a cause."""
        kind, *name = cause.about
        if kind == "node":
            return name[0] if name[0] in self.nodes() else OTHERS
        if kind == "message":
            return self.plan.project.messages[name[0]].node
        return OTHERS if kind == "identifiers" else self.network.manager

    def flags(self):
        """A flag for each place at which a cause was told."""
        return [[spot.time - self.offset, self.lane_of(cause), "deviation", cause.code, f"{safe_text.readable(text)}, line {spot.line}"]
                for cause, text in self.findings for spot in cause.spots]

    def states(self):
        """The states of recorded and planned lanes."""
        last = self.recorded.windows[-1].end
        found = {node: [[max(time - self.offset, 0), STATES.index(state)] for time, state in self.recorded.heard.states(node, last)]
                 for node in self.nodes()}
        project = self.plan.project
        planned = states_of(list(project.nodes), moments_of(project, events_of(project, self.end), [self.window]))
        found.update((PLANNED + node, [[time + self.shift if time else 0, state] for time, state in changes])
                     for node, changes in planned.items())
        return found

    def expected(self, flags):
        """The flags of emergencies and boots that fail, which are no deviations: what isn't planned of them has a flag of its own."""
        deviating = {(spot.time - self.offset, self.lane_of(cause)) for cause, _ in self.findings for spot in cause.spots}
        return [[time, lane, "expected" if kind in ("emergency", "failed") else kind, *words] for time, lane, kind, *words in flags
                if kind != "emergency" or (time, lane) not in deviating]

    def content(self, title):
        """What the page draws: the recorded windows, and the planned run as the last one."""
        rows = [list(row) for row in self.recorded.sorts.rows]
        count = len(rows)
        rows += [[identifier, kind, lane + PLANNED if lane != OTHERS else OTHERS, size, text]
                 for identifier, kind, lane, size, text in self.sorts.rows]
        planned = next(self.moved([self.window], self.shift))
        planned["sort"] = [sort + count for sort in planned["sort"]]
        planned["flags"] = [[time, lane + PLANNED, *rest] for time, lane, *rest in planned["flags"]]
        scenario = [event_flag(self.drawing.network, *each) for each in events_of(self.plan.project, self.end)]
        events = [[time + self.shift, lane + PLANNED, *rest] for time, lane, *rest in scenario]
        windows = list(self.moved(self.recorded.windows, -self.offset)) + [planned]
        for window in windows:
            window["flags"] = self.expected(window["flags"])
        mark_others(windows, rows, PLANNED)
        return {
            "title": safe_text.readable(title), "script": True, "end": self.end, "bit": self.plan.bit, "kinds": meaning.KINDS,
            "stateNames": STATES, "lanes": self.lanes(), "states": self.states(), "sorts": rows,
            "windows": windows, "events": events + self.flags(),
            "left": self.recorded.left, **({"stuffed": True} if is_stuffed(self.plan.lines) else {}),
        }
