"""The plan of messages: docs/rules/messages.md. pdo_objects says what the objects of PDOs can carry.

Version 3 alone has identifiers that are fixed, at closed PDOs, RPDOs that a `receive` names, and REALs, each of which
goes to an entry of its own type."""
from dataclasses import dataclass, field
from typing import Dict, List, Optional, Tuple
from .devices import PRODUCER_TIME
from .pdo_objects import RPDO, TPDO, PdoObjects, numbers_of
from .project import Message
from .values import REALS, width_bits
from .write_check import Place, is_restricted

(NO_OBJECTS, TPDO_TAKEN, TOO_MANY_BITS, NOT_MAPPABLE, MISMATCHED, NO_RPDO, NO_DUMMY, BAD_IDENTIFIER, NO_IDENTIFIER,
 RESERVED_TYPE) = range(5, 15)
DUMMY_TYPES = {1: 0x0001, 8: 0x0005, 16: 0x0006, 32: 0x0007}
AUTOMATIC = range(0x681, 0x6E0)
LEAST_IDENTIFIER = 0x181

@dataclass
class Planned:
    """A message and what the plan says of it: its faults, and of a clean one what its PDOs carry."""
    name: bytes
    message: Message
    sources: Dict[int, Place]                          # by position, in order
    sinks: Dict[Tuple[int, int], Place]                # by position and node
    receives: Dict[int, Tuple[int, int]]               # by node: RPDO, milliseconds
    widths: Dict[int, Optional[int]]                   # by position: bits
    faults: Tuple[int, ...] = ()
    identifier: Optional[int] = None
    mapping: List[Optional[int]] = field(default_factory=list)
    rpdos: Dict[int, Optional[int]] = field(default_factory=dict)              # by consumer
    mappings: Dict[int, List[Optional[int]]] = field(default_factory=dict)     # by consumer

    def is_clean(self):
        return not self.faults

    def consumers(self):
        return sorted({node for _, node in self.sinks})

    def milliseconds(self, node):
        """The event time that a `receive` gives the node; 0 where none does, and that of the RPDO stays as it is."""
        return self.receives.get(node, (0, 0))[1]

def plan_of(project):
    """Each message, by name, judged against the clean ones before it."""
    planning = Planning(project)
    return [planning.judged(name, message) for name, message in sorted(project.messages.items())]

def mapping_item(place, bits):
    """None of what has no width."""
    return None if bits is None else place[0] << 16 | place[1] << 8 | bits

class Planning:
    """The TPDOs, RPDOs and identifiers that the clean messages so far have. fixed: the identifiers of closed PDOs."""
    def __init__(self, project):
        self.project = project
        self.shapes = {node: project.sheet(node).shape(node) for node in project.nodes}
        self.tpdos, self.rpdos, self.identifiers = set(), set(), set()
        self.consumers = {(name, node) for name, _, node in project.sinks}
        self.fixed = {(base, node, number): PdoObjects(project, node, base, number).fixed_identifier()
                      for node in project.nodes for base in (TPDO, RPDO) for number in numbers_of(project, node, base)}

    def judged(self, name, message):
        sources = self.project.sources_of(name)
        widths = {position: width_bits(self.type_at(message.node, place)) for position, place in sources.items()}
        planned = Planned(name, message, sources, self.project.sinks_of(name), self.project.receives_of(name), widths)
        planned.mapping = [mapping_item(place, widths[position]) for position, place in sources.items()]
        tpdo = PdoObjects(self.project, message.node, TPDO, message.tpdo)
        fixed = tpdo.fixed_identifier()
        planned.identifier = fixed if fixed is not None else message.cob_id or self.automatic_identifier(message)
        for node in planned.consumers():
            planned.mappings[node] = [self.item_taken(planned, position, node) for position in sources]
            planned.rpdos[node] = self.rpdo_for(planned, node)
        planned.faults = self.faults(planned, tpdo)
        if planned.is_clean():
            self.tpdos.add((message.node, message.tpdo))
            self.rpdos.update(planned.rpdos.items())
            self.identifiers.add(planned.identifier)
        return planned

    def type_at(self, node, place):
        """None also where the entry isn't there."""
        return self.shapes[node].types.get(place)

    def automatic_identifier(self, message):
        """The predefined one of TPDO 1 to 4 where it is free, else the least free one; None where none is."""
        had = self.identifiers.union(self.fixed.values())
        predefined = [0x80 + 0x100 * message.tpdo + message.node] if message.tpdo <= 4 else []
        return next((identifier for identifier in (*predefined, *AUTOMATIC) if identifier not in had), None)

    def is_free(self, identifier):
        return identifier >= LEAST_IDENTIFIER and not is_restricted(identifier) and identifier not in self.identifiers

    def item_taken(self, planned, position, node):
        """What a consumer maps for a source: its sink there, else a dummy; None where neither can be."""
        width = planned.widths[position]
        if (position, node) in planned.sinks:
            return mapping_item(planned.sinks[position, node], width)
        return mapping_item((DUMMY_TYPES[width], 0), width) if width in DUMMY_TYPES else None

    def rpdo_for(self, planned, node):
        """The RPDO by which a consumer takes the message, or None: the one that a `receive` of it names, else the first
        that fits of the closed ones with its identifier, and then of all, but for those that others' `receive` name."""
        named = planned.receives.get(node, (0, 0))[0]
        others = {number for (name, other), (number, _) in self.project.receives.items()
                  if other == node and name != planned.name and (name, node) in self.consumers}
        numbers = [number for number in numbers_of(self.project, node, RPDO) if number not in others]
        closed = [number for number in numbers if self.fixed.get((RPDO, node, number)) == planned.identifier]
        return next((number for number in ([named] if named else closed + numbers)
                     if (node, number) not in self.rpdos and self.fits(planned, node, number)), None)

    def fits(self, planned, node, number):
        dummies = [sub for sub, position in enumerate(planned.sources, 1) if (position, node) not in planned.sinks]
        rpdo = PdoObjects(self.project, node, RPDO, number)
        return rpdo.receives_message(planned.message, planned.identifier, planned.mappings[node], dummies)

    def faults(self, planned, tpdo):
        message = planned.message
        is_free = planned.identifier is not None and self.is_free(planned.identifier)
        holds = {
            NO_OBJECTS: not tpdo.sends(message, planned.mapping),
            TPDO_TAKEN: (message.node, message.tpdo) in self.tpdos,
            TOO_MANY_BITS: sum(width or 0 for width in planned.widths.values()) > 64,
            NOT_MAPPABLE: self.has_unmappable(planned),
            MISMATCHED: any(self.is_mismatched(planned, *key, place) for key, place in planned.sinks.items()),
            NO_RPDO: None in planned.rpdos.values(),
            NO_DUMMY: any(self.lacks_dummy(planned, node) for node in planned.consumers()),
            BAD_IDENTIFIER: message.cob_id != 0 and not (is_free and message.cob_id == planned.identifier),
            NO_IDENTIFIER: message.cob_id == 0 and not is_free,
            RESERVED_TYPE: 241 <= message.type <= 251,
        }
        return tuple(fault for fault, does_hold in holds.items() if does_hold)

    def has_unmappable(self, planned):
        sender = planned.message.node
        return (any(not self.can_map(sender, place, False) for place in planned.sources.values())
                or any(node == sender or not self.can_map(node, place, True)
                       for (_, node), place in planned.sinks.items()))

    def can_map(self, node, place, receives):
        """The heartbeat time of the controller, which is the manager's, is in no PDO."""
        entry = self.shapes[node].entry(*place)
        is_of_manager = node == self.project.controller() and place == PRODUCER_TIME
        return entry is not None and entry.is_mappable(receives) and not is_of_manager

    def is_mismatched(self, planned, position, node, place):
        """A sink with no source at its position, or one of another width, or of another type where one is a REAL."""
        if position not in planned.sources:
            return True
        source, sink = self.type_at(planned.message.node, planned.sources[position]), self.type_at(node, place)
        if source is None or sink is None:
            return False
        return (None not in (width_bits(source), width_bits(sink)) and width_bits(source) != width_bits(sink)
                or source != sink and (source in REALS or sink in REALS))

    def lacks_dummy(self, planned, node):
        """The consumer has no sink for a source, and allows no dummy of its width."""
        return any((position, node) not in planned.sinks and width is not None
                   and DUMMY_TYPES.get(width) not in self.shapes[node].dummies
                   for position, width in planned.widths.items())
