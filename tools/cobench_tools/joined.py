"""Messages made of the PDOs of several nodes: TPDOs and RPDOs with one COB-ID belong together.

A message has to get the RPDO of each receiver that its file says. The plan gives each receiver the least RPDO that
is free, by the names of the messages (docs/rules/messages.md); so where their natural names stand in another order
than that in which the RPDOs have to be given, numbers are put in front of them. In version 3 a `receive` names the RPDO.
"""
from . import plan
from .device import object_name
from .pdo_objects import EVENT
from .project import Message, Project
from .wiring import COMMUNICATION, RPDO, TPDO, key_and_bits

LONGEST_NAME = 32
MOST_MESSAGES, GREATEST_START = 1024, 240


class Place:
    """What a mapping entry names, and the bits where it stands."""

    def __init__(self, start, item):
        self.start = start
        self.key, self.bits = key_and_bits(item)

    def is_dummy(self):
        return 1 <= self.key[0] <= 7 and self.key[1] == 0


def places_of(pdo):
    """What the mapping entries of a PDO name, by bits."""
    found, start = [], 0
    for item in pdo.items:
        found.append(Place(start, item))
        start += found[-1].bits
    return found


class Draft:
    """A message to be made of a TPDO.

    takers    the RPDO of each receiver, by its node
    receives  for receivers that a receive names the RPDO and its event time in ms, by their nodes: of version 3
    """

    def __init__(self, tpdo, name):
        self.tpdo, self.name, self.natural_name, self.takers, self.receives = tpdo, name, name, {}, {}

    def sources(self):
        """The sources by position."""
        return {position: place.key for position, place in enumerate(places_of(self.tpdo), 1)}

    def sinks(self):
        """The sinks by position and node: the entries that an RPDO maps at the very bits of a source."""
        positions = {(place.start, place.bits): position for position, place in enumerate(places_of(self.tpdo), 1)}
        return {(positions[place.start, place.bits], node): place.key
                for node, rpdo in self.takers.items() for place in places_of(rpdo)
                if not place.is_dummy() and (place.start, place.bits) in positions}

    def message(self):
        tpdo = self.tpdo
        words = [str(tpdo.kind or 0), str(tpdo.inhibit), str(tpdo.event), f"{tpdo.identifier:03X}"]
        message = Message(tpdo.node, tpdo.number, words)
        message.start = tpdo.start if tpdo.start <= GREATEST_START else 0
        message.sources, message.sinks, message.receives = self.sources(), self.sinks(), self.receives
        return message


class Joined:
    """The messages of the nodes of several files, for a script of a version with these numbers of its manager.

    drafts  the messages, by the names that they get
    causes  why a PDO of a node is in no message, in words, by node, direction and number
    """

    def __init__(self, files, version, manager):
        self.files, self.version, self.manager = {file.number: file for file in files}, version, manager
        self.causes = {}
        self.drafts = self._drafts()
        self._give_takers()
        self._name()
        while self._leave_out_faulty():
            self._name()
        self._leave_out_receives()

    def _on(self, direction):
        """The PDOs of a direction that are on, by node and number: before version 3 those that a file sets in part at least;
        in version 3, where the others are turned off, these behind them."""
        found = [pdo for number in sorted(self.files) for pdo in self.files[number].set_pdos(direction)]
        known = {(pdo.node, pdo.number) for pdo in found}
        others = [pdo for number in sorted(self.files) for pdo in self.files[number].on_pdos(direction)
                  if pdo.works() and (pdo.node, pdo.number) not in known]
        return found + others if self.version >= 3 else found

    def _drafts(self):
        """A message for each TPDO that a file sets, or that is on by default and taken by an RPDO that is set; in version 3
        for each that is on."""
        taken = {pdo.identifier for pdo in self._on(RPDO)}
        set_ones = {(pdo.node, pdo.number) for pdo in self._on(TPDO)}
        names, drafts = set(), []
        for number in sorted(self.files):
            file = self.files[number]
            for tpdo in file.on_pdos(TPDO):
                if (number, tpdo.number) in set_ones or tpdo.identifier in taken:
                    drafts.append(Draft(tpdo, free_name(f"{file.name}_{tpdo.number}", names)))
        return drafts

    def _give_takers(self):
        """Each RPDO that a file sets goes to the first message with its identifier."""
        by_identifier = {}
        for draft in self.drafts:
            by_identifier.setdefault(draft.tpdo.identifier, draft)
        for rpdo in self._on(RPDO):
            draft = by_identifier.get(rpdo.identifier)
            where = rpdo.node, RPDO, rpdo.number
            if draft is None:
                self.causes[where] = f"no TPDO of these files sends {rpdo.identifier:03X}h"
            elif rpdo.node in draft.takers:
                other = draft.takers[rpdo.node].number
                self.causes[where] = f"RPDO {other} of the node takes {rpdo.identifier:03X}h too"
            else:
                draft.takers[rpdo.node] = rpdo
        for draft in self.drafts:
            self._judge_takers(draft)
            if self.version >= 3:
                draft.receives = {node: (rpdo.number, self._milliseconds(rpdo)) for node, rpdo in draft.takers.items()}

    def _milliseconds(self, rpdo):
        """The event time that a file gives an RPDO, 0 where it gives none."""
        return rpdo.event if (COMMUNICATION[RPDO] + rpdo.number, EVENT) in self.files[rpdo.node].node.written else 0

    def _judge_takers(self, draft):
        """What a receiver takes of a message has to stand at the bits of a source; without any it is no receiver."""
        nodes = {node for _, node in draft.sinks()}
        sent = {(place.start, place.bits) for place in places_of(draft.tpdo)}
        for node, rpdo in list(draft.takers.items()):
            odd = [place for place in places_of(rpdo) if not place.is_dummy() and (place.start, place.bits) not in sent]
            if odd:
                self.causes[node, RPDO, rpdo.number] = (
                    f"it takes {object_name(odd[0].key)} from the {odd[0].bits} bits at {odd[0].start}, where "
                    f"{draft.tpdo.identifier:03X}h has no such value")
            if node not in nodes:
                why = self.causes.get((node, RPDO, rpdo.number), "it maps nothing")
                self._drop_taker(draft, node, why)

    def _drop_taker(self, draft, node, why):
        rpdo = draft.takers.pop(node)
        draft.receives.pop(node, None)
        self.causes[node, RPDO, rpdo.number] = why

    def plan(self):
        """What the plan makes of the messages."""
        project = Project()
        project.version, project.manager = self.version, self.manager
        project.nodes = {number: (file.name, "") for number, file in self.files.items()}
        project.messages = {draft.name: draft.message() for draft in self.drafts}
        return plan.Plan(project, {number: file.device for number, file in self.files.items()})

    def _leave_out_faulty(self):
        """Leaves out the messages and the receivers of which the plan can make no PDOs; whether there were some."""
        planned = self.plan().messages
        for draft in list(self.drafts):
            faults = planned[draft.name].faults
            own = [fault.words for fault in faults if fault.node is None]
            if own:
                self._leave_out(draft, own[0])
            for fault in faults if not own else []:
                if fault.node in draft.takers:
                    self._drop_taker(draft, fault.node, fault.words)
        return any(each.faults for each in planned.values())

    def _leave_out(self, draft, why):
        """A message can't be made."""
        self.drafts.remove(draft)
        self.causes[draft.tpdo.node, TPDO, draft.tpdo.number] = why
        for node in list(draft.takers):
            self._drop_taker(draft, node, f"there is no message {draft.tpdo.identifier:03X}h: {why}")

    # The receives, and the order that gives each receiver the RPDOs of its file.

    def _leave_out_receives(self):
        """A node needs no receives where none has an event time, and it gets the RPDOs of its file without."""
        wanted = [(draft, draft.receives) for draft in self.drafts]
        more = {node for _, receives in wanted for node, (_, time) in receives.items() if time}
        needed = set()
        while more or not needed:
            needed |= more
            for draft, receives in wanted:
                draft.receives = {node: receives[node] for node in sorted(receives) if node in needed}
            planned = self.plan().messages
            more = {node for draft, receives in wanted for node, (number, _) in receives.items()
                    if planned[draft.name].rpdos[node][0] != number}
            if not more:
                return

    def _before(self):
        """For each message those that have to come before it: they have the lower RPDOs of a receiver."""
        planned, before = self.plan(), {draft: set() for draft in self.drafts}
        owners = {(node, rpdo.number): draft for draft in self.drafts for node, rpdo in draft.takers.items()}
        for draft in self.drafts:
            for node, rpdo in draft.takers.items():
                fitting = planned.rpdos_that_fit(planned.messages[draft.name], node)
                before[draft] |= {owners[node, number] for number in fitting
                                  if number < rpdo.number and (node, number) in owners}
        return before

    def _order(self):
        """The messages in such an order, and else by their natural names; where there is none, as far as it goes."""
        before, order, placed = self._before(), [], set()
        rest = sorted(self.drafts, key=lambda draft: draft.natural_name)
        while rest:
            ready = next((draft for draft in rest if before[draft] <= placed), rest[0])
            rest.remove(ready)
            order.append(ready)
            placed.add(ready)
        return order

    def _name(self):
        """Gives the messages their natural names, where these stand in a right order, else numbers in front of them; in version 3
        any order is right."""
        order = self._order() if self.version < 3 else sorted(self.drafts, key=lambda draft: draft.natural_name)
        is_natural = order == sorted(order, key=lambda draft: draft.natural_name)
        width = len(str(len(order)))
        for number, draft in enumerate(order, 1):
            draft.name = draft.natural_name if is_natural else f"m{number:0{width}}_{draft.natural_name}"[:LONGEST_NAME]
        self.drafts = self.drafts if is_natural else order


def free_name(name, taken):
    """A name that isn't taken yet; it is from then on."""
    found, number = name[:LONGEST_NAME], 1
    while found in taken:
        number += 1
        found = f"{name[:LONGEST_NAME - len(str(number)) - 1]}_{number}"
    taken.add(found)
    return found
