"""What is made anew for the answers of a session: docs/costs.md, docs/architecture.md.

Nothing is kept here that an answer is taken from: each is made from scratch, and beside it stands what a program that
keeps its answers would hold, and how much of it would have to be made anew.

- Parts are what answers are made from: one is made anew where it isn't held, or was made from other values.
- A segment is one window of a run: it is made anew where none is held that starts from the same state of the network
  and of which all that it read is unchanged. A held one that serves has to be what is run now, else the count stops.

Parts are let go at the next query, not at the edit; the plan says of a message with faults nothing but these, and of a
clean one what its writes need; a window's events are what they come to; a device without power has no state; the store
is cut to its capacity at the end of a trace."""
from typing import Dict, List, NamedTuple, Optional
from .bus import WINDOW, Bus, Image, roster_of
from .devices import PRODUCER_TIME
from .entries import code_of, compact_count, object_sections
from .messages import plan_of
from .pdo_objects import EVENT, INHIBIT, START, TYPE, TYPES
from .values import OF_VERSION_3, UNSIGNED8, UNSIGNED16, UNSIGNED32, type_of_code
from .writes import node_writes

WINDOWS = 1_001                # of a run to the longest horizon
CAPACITY = 2_048

class Work:
    """parts: of each, by name, what it was made from, and its value where others are made from it. segments: those that
    are held, the last run or used first. Of both how many were made anew since the start."""
    def __init__(self, capacity=CAPACITY):
        self.parts, self.parts_made = {}, 0
        self.segments, self.segments_made, self.capacity = [], 0, capacity

    def line(self):
        return b"work %d %d\n" % (self.segments_made, self.parts_made)

    def bring(self, name, inputs, make=lambda: None):
        if name not in self.parts or self.parts[name][0] != inputs:
            self.parts_made += 1
            self.parts[name] = inputs, make()
        return self.parts[name][1]

    def reach(self, project, query, lines):
        """A query that was answered by these lines."""
        if query.word == b"project":
            return
        self.project, self.plan = project, plan_of(project)
        self.let_go()
        plan = self.bring_plan()
        if query.word == b"diag":
            self.bring(("Diagnostics",), (project.script(), plan))
        elif query.word == b"trace":
            self.run(self.bring_image(plan), project.horizon, lines)
        else:
            node, = query.arguments
            writes = self.bring_writes(node, plan)
            if query.word == b"dcf":
                self.bring(("DCF", node), (writes, self.bring_device(node), project.nodes[node].name, project.bit_rate))
            else:
                self.bring(("Concise", node), writes)

    def let_go(self):
        """The parts whose text or node is gone."""
        texts, nodes = self.project.texts, self.project.nodes
        owners = {"Device": texts, "Node": nodes, "Writes": nodes, "DCF": nodes, "Concise": nodes}
        self.parts = {name: part for name, part in self.parts.items()
                      if name[0] not in owners or name[1] in owners[name[0]]}

    def bring_device(self, node):
        """That of the node's text: its sections, its warned lines, and what has types of version 3."""
        name, has_types = self.project.nodes[node].eds, self.project.version >= 3
        sheet, inputs = self.project.sheets[name], (self.project.texts[name], has_types)
        return self.bring(("Device", name), inputs, lambda: device_value(sheet))

    def bring_plan(self):
        project = self.project
        devices = [(node, self.bring_device(node)) for node in sorted(project.nodes)]
        inputs = (dict(project.messages), dict(project.sources), dict(project.sinks), dict(project.receives),
                  project.version >= 3, project.controller(), devices)
        return self.bring(("Plan",), inputs, lambda: list(map(planned_value, self.plan)))

    def bring_writes(self, node, plan):
        parameters = {key: text for key, text in self.project.parameters.items() if key[0] == node}
        inputs = plan, parameters, self.bring_device(node), self.project.version >= 3
        return self.bring(("Writes", node), inputs, lambda: node_writes(self.project, self.plan, node))

    def bring_image(self, plan):
        """All that a run can read; the entries of a node, their values and its expected identity are one part."""
        project = self.project
        self.bring(("Roster",), roster_of(project))
        for node in sorted(project.nodes):
            device, writes = self.bring_device(node), self.bring_writes(node, plan)
            self.bring(("Node", node), (device, writes if node == project.controller() else None))
        image = Image(project)
        for number in range(WINDOWS):
            self.bring(("Events", number), image.parts.get(("Events", number)))
        return image

    def run(self, image, horizon, answer):
        """The state in which a window begins is the same whether those before were run or used: so each is run here."""
        reached = []
        for run in segments_of(image, horizon // WINDOW):
            used = next((held for held in self.segments if held.serves(run, image)), None)
            if used is None:
                self.segments_made += 1
            elif (used.reads, used.lines, used.end) != (run.reads, run.lines, run.end):
                raise AssertionError(f"the segment {run.number} that is held isn't what is run now")
            reached.insert(0, used or run)
        lines = [line for segment in reversed(reached) for now, line in segment.lines if now <= horizon]
        if lines != answer:
            raise AssertionError("the segments don't give the answer")
        others = [held for held in self.segments if not any(held is each for each in reached)]
        self.segments = (reached + others)[:self.capacity]

def device_value(sheet):
    sections = [(section.name, list(section.pairs.values())) for section in sheet.content.sections.values()]
    types = {place: kind for place, kind in sheet.types.items() if kind in OF_VERSION_3}
    compact = {index for index, section in object_sections(sheet.content) if compact_count(section)
               and type_of_code(code_of(section), sheet.has_all_types) in OF_VERSION_3}
    return sections, sheet.content.warnings, types, compact

def planned_value(planned):
    if not planned.is_clean():
        return planned.name, planned.faults
    return (planned.name, planned.message._replace(cob_id=0), planned.identifier, planned.mapping, planned.rpdos,
            planned.mappings, [planned.milliseconds(node) for node in planned.consumers()])

# ------------------------------------------------------------------ segments
def learnt(device):
    """Which entries are there with the type that a rule asks for: learnt at power-on and at a reset."""
    asked = [(0x1001, 0, UNSIGNED8), (0x1005, 0, UNSIGNED32), (*PRODUCER_TIME, UNSIGNED16), (0x1019, 0, UNSIGNED8)]
    asked += [(index, sub, TYPES[sub]) for index, pdo in device.pdos.items()
              for sub in ((TYPE, INHIBIT, EVENT, START) if pdo.sends else (TYPE,))]
    return [device.shape.has_type(*each) for each in asked], list(device.consumers), list(device.pdos)

def device_state(device):
    if not device.has_power:
        return None
    return (device.state, dict(device.values), learnt(device), list(device.waiting.frames), device.transfer,
            device.heartbeat, dict(device.consumers), set(device.failed),
            {index: (pdo.is_on, pdo.last, pdo.inhibit, pdo.event, pdo.counted, pdo.has_started, pdo.kept)
             for index, pdo in device.pdos.items()})

def bus_state(bus):
    """Between two windows: no event is left of the one before, and none is read of the next."""
    manager = bus.manager
    return (bus.roster, bus.slot, dict(manager.stages), manager.has_started_network, list(manager.waiting.frames),
            {node: device_state(device) for node, device in bus.devices.items()})

class Segment(NamedTuple):
    """A window of a run."""
    number: int
    start: Optional[tuple]     # the state in which it begins; None before power-on
    reads: Dict                # what each part had that it read
    lines: List                # with their times
    end: tuple                 # the state in which it ends

    def serves(self, run, image):
        """In the place of one that is run."""
        return (self.number == run.number and self.start == run.start
                and all(image.parts.get(part) == value for part, value in self.reads.items()))

def segments_of(image, last):
    """The windows 0 to last of the run, each from the state that the one before ends in."""
    reads = {}

    def read(*part):
        return reads.setdefault(part, image.parts.get(part))

    start, bus = None, Bus(image, read)
    for number in range(last + 1):
        read("Events", number)
        lines = list(bus.run(WINDOW * number, WINDOW * (number + 1)))          # the start of a window is due
        segment = Segment(number, start, dict(reads), lines, bus_state(bus))
        yield segment
        start = segment.end
        reads.clear()

