"""All that is wrong with a project: docs/rules/diagnostics.md. Version 3 alone has W23, W24, W25, E26, W27 and W28."""
from .devices import PRODUCER_TIME
from .messages import plan_of
from .pdo_objects import EVENT, RPDO, TPDO, PdoObjects, numbers_of
from .values import UNSIGNED8, UNSIGNED16, UNSIGNED32, value
from .write_check import EXTENDED, IDENTIFIER, OFF, OBJECTS_OF_PDOS, TPDO_OBJECTS, Dictionary, is_restricted
from .writes import NO_VALUE, node_writes, parameter_fault, parameter_texts, sent_by, taken_by

ERRORS = (*range(1, 17), 26)

def diagnostics_of(project):
    """The lines, by the code's number and then by the subject's words: numbers as numbers, names by their bytes."""
    return [(b"E%02d " if code in ERRORS else b"W%02d ") % code + subject % tuple(words)
            for code, subject, *words in sorted(set(Diagnostics(project).found()))]

class Diagnostics:
    def __init__(self, project):
        self.project, self.plan, self.controller = project, plan_of(project), project.controller()
        self.manager, self.sync_us, self.heartbeat_ms, _ = project.manager
        self.shapes = {node: project.sheet(node).shape(node) for node in project.nodes}
        self.writes = {node: node_writes(project, self.plan, node) for node in project.nodes}
        self.after = {node: Dictionary(self.shapes[node], {**project.sheet(node).defaults(node), **dict(writes)})
                      for node, writes in self.writes.items()}                 # once the nodes are configured

    def found(self):
        """Each diagnostic: the number of its code (None: there is none), the form of its subject, and its words."""
        rules = [self.unfit_parameters, self.unreadable_defaults, self.unfit_events, self.message_faults,
                 self.shared_identifiers, self.unfit_consumers, self.skipped_lines, self.other_counters]
        rules += [self.unplanned_pdos, self.events_of_controller, self.writes_outside_limits, self.other_heartbeat,
                  self.useless_receives] if self.project.version >= 3 else []
        return [each for rule in rules for each in rule() if each[0] is not None]

    def unfit_parameters(self):
        return [(parameter_fault(shape, place, text, node), b"param %d %04X %02X", node, *place)
                for node, shape in self.shapes.items() for place, text in parameter_texts(self.project, node).items()]

    def unreadable_defaults(self):
        return [(NO_VALUE, b"default %d %04X %02X", node, *place) for node, shape in self.shapes.items()
                for place, described in self.project.sheet(node).entries.items()
                if shape.types[place] is not None and described.default
                and value(shape.types[place], described.default, node) is None]

    def unfit_events(self):
        sets = [(k, *event.words) for k, event in self.project.events.items() if event.kind == b"set"]
        return [(parameter_fault(self.shapes[node], (index, sub), text, node, True), b"event %d", k)
                for k, node, index, sub, text in sets]

    def message_faults(self):
        for planned in self.plan:
            message = planned.message
            warnings = {17: message.type in (252, 253), 18: message.type <= 240 and self.sync_us == 0,
                        22: 1 <= message.type <= 240 and message.start > self.project.sync_counter}
            for code in (*planned.faults, *(code for code, holds in warnings.items() if holds)):
                yield code, b"message %s", planned.name

    def shared_identifiers(self):
        """TPDOs that are on, whatever they map."""
        cob_ids = [device.number_at(index, 1, UNSIGNED32) for device in self.after.values()
                   for index in device.shape.indices if index in TPDO_OBJECTS]
        had = [cob_id & IDENTIFIER for cob_id in cob_ids if cob_id is not None and not cob_id & (OFF | EXTENDED)]
        return [(15, b"cob %03X", identifier) for identifier in set(had)
                if had.count(identifier) > 1 and not is_restricted(identifier)]

    def unfit_consumers(self):
        for node, device in self.after.items():
            for index, sub in device.shape.entries:
                consumer = device.number_at(index, sub, UNSIGNED32) if index == 0x1016 and sub >= 1 else None
                if consumer is not None and self.is_unfit(node, consumer >> 16 & 0xFF, consumer & 0xFFFF):
                    yield 19, b"node %d %02X", node, sub

    def is_unfit(self, node, producer, time):
        """It is on, and what it watches isn't there, sends no heartbeat, or too seldom; or is the controller itself."""
        if producer == 0 or time == 0:
            return False
        period = self.heartbeat_time(producer)
        return producer == node == self.controller or period == 0 or time <= period

    def heartbeat_time(self, producer):
        """In milliseconds; 0 where none is sent."""
        if producer == self.manager:
            return self.heartbeat_ms
        return self.after[producer].number_at(*PRODUCER_TIME, UNSIGNED16) or 0 if producer in self.after else 0

    def skipped_lines(self):
        return [(20, b"eds %s %d", name, number) for name, sheet in self.project.sheets.items()
                for number in sheet.content.warnings]

    def other_counters(self):
        return [(21, b"node %d", node) for node, device in self.after.items()
                if device.number_at(0x1019, 0, UNSIGNED8) not in (None, self.project.sync_counter)]

    # ---------------------------------------------------------- of version 3
    def unplanned_pdos(self):
        for node in self.shapes:
            sent, taken = sent_by(self.plan, node), taken_by(self.plan, node)
            identifiers = {planned.identifier for planned in self.plan
                           if planned.is_clean() and planned.message.node != node}
            for k in numbers_of(self.project, node, TPDO):
                if k not in sent and PdoObjects(self.project, node, TPDO, k).sends_by_default():
                    yield 23, b"tpdo %d %d", node, k
            for k in numbers_of(self.project, node, RPDO):
                if k not in taken and PdoObjects(self.project, node, RPDO, k).identifier_that_stays() in identifiers:
                    yield 24, b"rpdo %d %d", node, k

    def events_of_controller(self):
        return [(25, b"event %d", k) for k, event in self.project.events.items() if event.node() == self.controller
                and (event.kind == b"power" or event.kind == b"set" and event.words[1:3] == PRODUCER_TIME)]

    def writes_outside_limits(self):
        return [(26, b"limit %d %04X %02X", node, *place) for node, writes in self.writes.items()
                for place, data in writes
                if place[0] in OBJECTS_OF_PDOS and self.shapes[node].entry(*place).value_check(data) is not None]

    def other_heartbeat(self):
        time = self.after[self.controller].number_at(*PRODUCER_TIME, UNSIGNED16) if self.controller else None
        return [(27, b"node %d", self.controller)] if time not in (None, self.heartbeat_ms) else []

    def useless_receives(self):
        return [(28, b"receive %s %d", planned.name, node) for planned in self.plan for node in planned.receives
                if node not in planned.consumers() or planned.is_clean() and not self.has_event_time(planned, node)]

    def has_event_time(self, planned, node):
        """What the `receive` asks for can be had; 0 asks for nothing."""
        milliseconds, rpdo = planned.milliseconds(node), PdoObjects(self.project, node, RPDO, planned.rpdos[node])
        return milliseconds == 0 or rpdo.parameter_serves(EVENT, milliseconds)
