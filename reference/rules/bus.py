"""The image of a project, one instant of the bus, and the trace of a run: docs/rules/bus.md.

In version 3 a node may have the manager's number, the controller: it holds its configuration from power-on, has no
1017h:00, since the manager's heartbeat is its own, and its power isn't switched."""
from typing import NamedTuple, Optional, Tuple
from . import frames
from .devices import PRODUCER_TIME, Device
from .manager import Manager
from .messages import plan_of
from .values import value
from .write_check import Shape
from .writes import node_writes

WINDOW = 10_000                # microseconds
IDLE = None, None, None        # no slot

class Roster(NamedTuple):
    bit_rate: int
    manager: int
    sync_us: int
    heartbeat_ms: int
    timeout_ms: int
    time_us: int
    day: int                   # that begins at the moment 0
    sync_counter: int
    version: int
    controller: Optional[int]
    nodes: Tuple[int, ...]
    booted: Tuple[int, ...]
    mandatory: Tuple[int, ...]

def roster_of(project):
    nodes, controller = sorted(project.nodes), project.controller()
    booted = [node for node in nodes if node != controller]
    mandatory = [node for node in booted if project.nodes[node].is_mandatory]
    return Roster(project.bit_rate, *project.manager, *project.time, project.sync_counter, project.version, controller,
                  tuple(nodes), tuple(booted), tuple(mandatory))

class Step(NamedTuple):
    """An event as the run has it. content: the place and the bytes that it sets, or what is switched or commanded."""
    time: int
    kind: bytes
    node: int
    content: Tuple

class Image:
    """What a run reads of a project. parts: the roster; of each node its default values, its shape, what is expected of
    it, and each of its writes; of each window that has some its steps."""
    def __init__(self, project):
        self.roster, plan = roster_of(project), plan_of(project)
        self.parts = {("Roster",): self.roster}
        for node in self.roster.nodes:
            sheet, writes = project.sheet(node), node_writes(project, plan, node)
            shape, defaults = sheet.shape(node), sheet.defaults(node)
            if node == self.roster.controller:
                shape = Shape(without_producer_time(shape.entries), shape.dummies)
                defaults = without_producer_time({**defaults, **dict(writes)})
            self.parts["Shape", node], self.parts["Defaults", node] = shape, defaults
            self.parts["Expect", node] = sheet.identity(node)
            self.parts.update((("Boot", node, number), write) for number, write in enumerate(writes))
        events = sorted(project.events.items(), key=lambda item: (item[1].time, item[0]))
        self.steps = [step for step in (self.step_of(event) for _, event in events) if step is not None]
        for step in self.steps:
            self.parts.setdefault(("Events", step.time // WINDOW), []).append(step)

    def step_of(self, event):
        """None of an event that sets what isn't there or isn't modelled, or to a text that spells no value."""
        if event.kind != b"set":
            content = (event.words[1] == b"on",) if event.kind == b"power" else event.words[:1]
            return Step(event.time, event.kind, event.node(), content)
        node, *place, text = event.words
        data = value(self.parts["Shape", node].types.get(tuple(place)), text, node)
        return None if data is None else Step(event.time, event.kind, node, (tuple(place), data))

def without_producer_time(table):
    return {place: content for place, content in table.items() if place != PRODUCER_TIME}

class Bus:
    """The network from power-on. read(part, ..) gives a part of the image, or None; the events are taken from it."""
    def __init__(self, image, read):
        self.roster, self.steps = read("Roster"), list(image.steps)
        self.slot = IDLE                               # else its end, the sender and its frame
        self.manager = Manager(self.roster, read)
        self.devices = {node: Device(node, image.parts["Shape", node], image.parts["Defaults", node], read)
                        for node in self.roster.nodes}
        for device in self.devices.values():
            device.power(True, 0)
        self.lists = {(node, False): device.waiting for node, device in self.devices.items()}
        self.lists[self.roster.manager, True] = self.manager.waiting

    def instant(self, now):
        """One microsecond; gives its lines."""
        while self.steps and self.steps[0].time == now:
            self.act(self.steps.pop(0), now)
        sender, frame = self.end_slot(now)
        for device in self.devices_with_power():
            if frame is not None and sender != (device.number, False):
                device.take(frame, now)
        for device in self.devices_with_power():
            device.run_timers(now)
        for device in self.devices_with_power():
            device.send_tpdos(now)
        if frame is not None and sender != (self.roster.manager, True):
            self.manager.take(frame, now)
        self.manager.run_timers(now)
        self.start_slot(now)
        lines = [] if frame is None else [frames.frame_line(now, frame)]
        lines += [b"%010d note %d %s" % (now, node, text) for node, text in self.manager.notes]
        self.manager.notes.clear()
        return lines

    def devices_with_power(self):
        return [device for device in self.devices.values() if device.has_power]

    def act(self, step, now):
        if step.kind == b"nmt":
            self.manager.command(*step.content, step.node)
        elif step.kind == b"power" and step.node != self.roster.controller:
            self.devices[step.node].power(*step.content, now)
        elif step.kind == b"set" and self.devices[step.node].has_power:
            self.devices[step.node].write(*step.content, now)

    def end_slot(self, now):
        """The sender and the frame of the slot that ends now, or None and None."""
        if self.slot[0] != now:
            return None, None
        _, *ended = self.slot
        self.slot = IDLE
        return ended

    def start_slot(self, now):
        """Where the wire is idle and a frame waits."""
        found = frames.winner(self.lists) if self.slot is IDLE else None
        if found is not None:
            sender, place = found
            _, frame = self.lists[sender].frames.pop(place)
            self.slot = now + frames.slot_time(frame, self.roster.bit_rate, self.roster.version), sender, frame

    def next_due(self, now):
        """The least due moment after now, or None."""
        moments = [step.time for step in self.steps[:1]] + [self.slot[0]]
        for node in (self.manager, *self.devices_with_power()):
            moments += node.moments(now)
        return min((moment for moment in moments if moment is not None and moment > now), default=None)

    def run(self, now, end):
        """The lines with their times, from now to before the end: of the instants at which something is due."""
        while now is not None and now < end:
            yield from ((now, line) for line in self.instant(now))
            now = self.next_due(now)

def trace_of(project):
    image = Image(project)
    return [line for _, line in Bus(image, lambda *part: image.parts.get(part)).run(0, project.horizon + 1)]
