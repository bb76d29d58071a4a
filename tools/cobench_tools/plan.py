"""What the plan of cobench makes of messages, and why it can't make PDOs of some (docs/rules/messages.md).

It is for telling causes and for laying out scripts; what counts is what cobench itself answers.
"""
from .data_types import are_unlike, type_name
from .device import object_name
from .pdo_objects import EVENT, INHIBIT, START
from .planned_message import DUMMIES, Cause, Planned, first_sink, numbers_text, why_no_dummy
from .project import PRODUCER_TIME
from .vendor_pdo import pdo_objects
from .wiring import COMMUNICATION, RPDO, TPDO, is_restricted, pdo_numbers

LEAST_IDENTIFIER = 0x181
POOL = range(0x681, 0x6E0)


def item(key, bits):
    """The mapping entry of an entry with that many bits."""
    return key[0] << 16 | key[1] << 8 | bits


# What no PDO may have as its identifier.
SERVICES = ((0x000, 0x07F, "NMT"), (0x080, 0x0FF, "SYNC or EMCY"), (0x100, 0x100, "TIME"), (0x101, 0x180, "safety objects"), (0x581, 0x5FF, "SDO"),
            (0x601, 0x67F, "SDO"), (0x6E0, 0x6FF, "CiA 301"), (0x701, 0x7FF, "heartbeats"))


class Plan:
    """The plan of a project, with the data sheet of each node; `messages` has each message planned, by name."""

    def __init__(self, project, devices):
        self.project, self.devices = project, devices
        self._tpdos, self._rpdos, self._identifiers, self.messages = {}, {}, {}, {}
        self._fixed, self._closed_rpdos = self._fixed_pdos()
        self._kept = self._kept_rpdos()
        for name, message in sorted(project.messages.items()):
            planned = self.messages[name] = Planned(name, message)
            self._judge(planned)
            if not planned.faults:
                self._take(planned)

    def _judge(self, planned):
        """Finds the faults of a message, in the order of their codes."""
        message = planned.message
        fixed = self.pdo(message.node, TPDO, message.tpdo).fixed_identifier()
        planned.identifier = (message.numbers[3] or self._automatic(message)) if fixed is None else fixed
        planned.mapping = [self._item(key, self._width(message.node, key)) for _, key in planned.sources]
        for code, causes in (("E05", self._no_objects), ("E06", self._tpdo_taken), ("E07", self._too_many_bits),
                             ("E08", self._not_mappable), ("E09", self._mismatched), ("E10", self._no_rpdo),
                             ("E11", self._no_dummy), ("E12", self._bad_identifier), ("E13", self._no_identifier),
                             ("E14", self._reserved_type)):
            planned.faults += [cause._replace(code=code) for cause in causes(planned)]

    def _take(self, planned):
        """A clean message has its TPDO, its RPDOs and its identifier from now on."""
        message = planned.message
        self._tpdos[message.node, message.tpdo] = planned.name
        self._identifiers[planned.identifier] = planned.name
        for node, (rpdo, _) in planned.rpdos.items():
            self._rpdos[node, rpdo] = planned.name

    # What the project fixes.

    def pdo(self, node, direction, number):
        """The objects of a PDO of a node."""
        return pdo_objects(self.project.version, self.devices[node], node, direction, number)

    def _fixed_pdos(self):
        """The fixed identifiers of all closed PDOs, and the closed RPDOs of each node by their identifiers: of version 3."""
        identifiers, rpdos = set(), {}
        for node in self.devices if self.project.version >= 3 else ():
            for direction in (TPDO, RPDO):
                for number in self.pdo_numbers(node, direction):
                    fixed = self.pdo(node, direction, number).fixed_identifier()
                    identifiers.add(fixed)
                    if direction == RPDO and fixed is not None:
                        rpdos.setdefault((node, fixed), []).append(number)
        return identifiers, rpdos

    def _kept_rpdos(self):
        """The messages whose receives name an RPDO of a node that takes them: by node and RPDO."""
        kept = {}
        for name, message in sorted(self.project.messages.items()):
            takers = {node for _, node in message.sinks}
            for node, (number, _) in message.receives.items():
                if number and node in takers:
                    kept.setdefault((node, number), []).append(name)
        return kept

    # Names.

    def _name(self, node):
        """A node in words: `node 5 pump`."""
        return f"node {node} {self.project.nodes[node][0]}"

    def _entry(self, node, key):
        return self.devices[node].entries.get(key)

    def _width(self, node, key):
        """The bits of an entry of BOOLEAN, an integer or a REAL type, else None."""
        entry = self._entry(node, key)
        return entry.bits if entry else None

    def _described(self, node, key):
        entry = self._entry(node, key)
        return f"{object_name(key)} {entry.name if entry else ''}".rstrip()

    # E05: the objects of the TPDO.

    def pdo_numbers(self, node, direction):
        """The numbers of the PDOs of which a node has a communication object."""
        return pdo_numbers(self.devices[node], direction)

    def _no_objects(self, planned):
        message = planned.message
        numbers = self.pdo_numbers(message.node, TPDO)
        if message.tpdo not in numbers:
            return [Cause(f"{self._name(message.node)} has no TPDO {message.tpdo}; it has {numbers_text(numbers)}")]
        fault = self.pdo(message.node, TPDO, message.tpdo).why_not_sent(message, planned.mapping)
        if fault is None:
            return []
        (index, sub), why = fault
        is_of_mapping = index != COMMUNICATION[TPDO] + message.tpdo
        words = f"TPDO {message.tpdo} of {self._name(message.node)} can't be set: {why}{self._need(message, is_of_mapping, sub)}"
        return [Cause(words, part=("start",) if sub == START and not is_of_mapping else ())]

    def _need(self, message, is_of_mapping, sub):
        """What needs an entry of the TPDO of a message, in words behind others, "" where that is known."""
        if self.project.version >= 3:
            return ""
        if is_of_mapping:
            return f"; source {sub} of {len(message.sources)} needs it" if sub else ""
        _, inhibit, event, _ = message.numbers
        given = {INHIBIT: f"INHIBIT {inhibit}", EVENT: f"EVENT {event}", START: f"start value {message.start}"}
        return f"; {given[sub]} needs it" if sub in given else ""

    # E06, E07.

    def _tpdo_taken(self, planned):
        message = planned.message
        other = self._tpdos.get((message.node, message.tpdo))
        return [Cause(f"TPDO {message.tpdo} of {self._name(message.node)} sends message {other}", other=other)] if other else []

    def _too_many_bits(self, planned):
        bits = sum(self._width(planned.message.node, key) or 0 for _, key in planned.sources)
        return [Cause(f"its {len(planned.sources)} sources have {bits} bits, and a frame has 64")] if bits > 64 else []

    # E08: what PDOs can't carry.

    def _not_mappable(self, planned):
        node, causes = planned.message.node, []
        for position, key in planned.sources:
            causes.append(Cause(self._not_carried(node, key, f"source {position}", TPDO), part=("source", position)))
        for (position, taker), key in sorted(planned.message.sinks.items()):
            part = "sink", position, taker
            if taker == node:
                causes.append(Cause(f"sink {position} is of {self._name(node)}, which sends the message", taker, part))
            causes.append(Cause(self._not_carried(taker, key, f"sink {position}", RPDO), taker, part))
        return [cause for cause in causes if cause.words]

    def _not_carried(self, node, key, what, direction):
        """Why no PDO of a direction can carry an entry, or None."""
        entry = self._entry(node, key)
        if not entry:
            return f"{what}: {self._name(node)} has no {object_name(key)}"
        is_of_manager = node == self.project.controller and key == PRODUCER_TIME
        if not is_of_manager and (entry.is_sent() if direction == TPDO else entry.is_taken()):
            return None
        why = ("the controller's heartbeat is the manager's, whose time is HB_MS of manager" if is_of_manager else f"its data type is {type_name(entry.kind)}" if entry.bits is None
               else "its PDOMapping is 0" if not entry.mappable else f"its access is {entry.access}")
        pdo = "a TPDO" if direction == TPDO else "an RPDO"
        return f"{what}: {self._described(node, key)} of {self._name(node)} can't be in {pdo}, as {why}"

    # E09: widths, and types where one is a REAL.

    def _mismatched(self, planned):
        sources, causes = dict(planned.sources), []
        for (position, node), key in sorted(planned.message.sinks.items()):
            part = "sink", position, node
            if position not in sources:
                there = numbers_text(sorted(sources))
                causes.append(Cause(f"sink {position} of {self._name(node)} has no source; there are {there}", node, part))
                continue
            taken, sent = self._unlike(node, key, planned.message.node, sources[position])
            if taken != sent:
                source = self._described(planned.message.node, sources[position])
                causes.append(Cause(f"sink {position} of {self._name(node)}, {self._described(node, key)}, {taken}, "
                                    f"and source {position}, {source}, {sent}", node, part))
        return causes

    def _unlike(self, node, key, sender, source):
        """By what a sink and its source can't meet, in words each; the same of both where they can."""
        taken, sent = self._entry(node, key), self._entry(sender, source)
        if not taken or not sent or not taken.is_modelled or not sent.is_modelled:
            return "", ""
        if taken.bits and sent.bits and taken.bits != sent.bits:
            return f"has {taken.bits} bits", f"has {sent.bits}"
        return (f"is {type_name(taken.kind)}", f"is {type_name(sent.kind)}") if are_unlike(taken.kind, sent.kind) else ("", "")

    # E10, E11: the RPDOs of the consumers and what they map.

    def rpdos_that_fit(self, planned, node):
        """The RPDOs of a node that can take a message, by number."""
        items = self._items(planned, node)
        return [number for number in self.pdo_numbers(node, RPDO) if self._fits(planned, node, number, planned.identifier, items)]

    def _fits(self, planned, node, number, identifier, items):
        return self.pdo(node, RPDO, number).fits(planned.message, identifier, items, planned.dummies(node))

    def _no_rpdo(self, planned):
        causes = []
        for node in planned.consumers:
            items = self._items(planned, node)
            free = self._free_rpdo(planned, node, items)
            planned.rpdos[node] = free, items
            if free is None:
                causes.append(self._why_no_rpdo(planned, node, items))
        return causes

    def _free_rpdo(self, planned, node, items):
        """The RPDO by which a consumer takes a message, or None: the one that its receive names, else the least closed one with
        its identifier, else the least; none that a receive keeps for another message."""
        named = planned.message.receives.get(node, (0, 0))[0]
        closed = self._closed_rpdos.get((node, planned.identifier), [])
        several = [named] if named else [number for number in (*closed, *self.pdo_numbers(node, RPDO))
                                         if not self._keepers(planned, node, number)]
        return next((number for number in several if (node, number) not in self._rpdos
                     and self._fits(planned, node, number, planned.identifier, items)), None)

    def _keepers(self, planned, node, number):
        """The other messages for which receives keep an RPDO."""
        return [name for name in self._kept.get((node, number), ()) if name != planned.name]

    def _why_no_rpdo(self, planned, node, items):
        """Why a node has no RPDO left for a message."""
        named, count = planned.message.receives.get(node, (0, 0))[0], len(planned.sources)
        if named:
            words = f"RPDO {named} of {self._name(node)} can't take it: {self._why_not_taken(planned, node, named, items)}"
            return Cause(words, node, ("receive", node))
        reasons = [f"RPDO {number}: {self._why_not_taken(planned, node, number, items)}" for number in self.pdo_numbers(node, RPDO)]
        reasons = [each.replace(": it takes ", " takes ") for each in reasons]
        more = [f"{len(reasons) - 6} more likewise"] if len(reasons) > 6 else []
        has = "; ".join(reasons[:6] + more) or "it has none"
        words = f"{self._name(node)} has no RPDO left for {count} value{'' if count == 1 else 's'}: {has}"
        return Cause(words + self._what_would_do(planned, node, items), node, first_sink(planned, node))

    def _why_not_taken(self, planned, node, number, items):
        """Why an RPDO of a node doesn't take a message, in words."""
        if (node, number) in self._rpdos:
            return f"it takes {self._rpdos[node, number]}"
        if not planned.message.receives.get(node, (0, 0))[0] and self._keepers(planned, node, number):
            return f"a receive keeps it for {self._keepers(planned, node, number)[0]}"
        return self.pdo(node, RPDO, number).why_not_taken(planned.message, planned.identifier, items, planned.dummies(node))

    def _what_would_do(self, planned, node, items):
        """By which COB an RPDO with a fixed identifier would take a message, in words behind others, "" for none."""
        message = planned.message
        if not self.pdo(message.node, TPDO, message.tpdo).is_open():
            return ""
        for number in self.pdo_numbers(node, RPDO):
            fixed = self.pdo(node, RPDO, number).fixed_identifier()
            is_had = fixed is None or (node, number) in self._rpdos or self._keepers(planned, node, number)
            if not is_had and not self._why_no_identifier(fixed) and self._fits(planned, node, number, fixed, items):
                return f"; with COB {fixed:03X} RPDO {number} would take it"
        return ""

    def _items(self, planned, node):
        """The mapping entries of a consumer: for each source its sink, else a dummy as wide, None where neither can be."""
        items = []
        for position, key in planned.sources:
            bits = self._width(planned.message.node, key)
            sink = planned.message.sinks.get((position, node))
            items.append(self._item(sink or (DUMMIES.get(bits), 0), bits if sink or bits in DUMMIES else None))
        return items

    def _item(self, key, bits):
        return None if bits is None else item(key, bits)

    def _no_dummy(self, planned):
        causes = []
        for node in planned.consumers:
            for position, key in planned.sources:
                bits = self._width(planned.message.node, key)
                if (position, node) not in planned.message.sinks and bits and not self._skips(node, bits):
                    words = f"{self._name(node)} takes nothing of source {position}, and {why_no_dummy(bits)}"
                    causes.append(Cause(words, node, first_sink(planned, node)))
        return causes

    def _skips(self, node, bits):
        return bits in DUMMIES and self.devices[node].allows_dummy(DUMMIES[bits])

    # E12 to E14: its identifier and its type.

    def _bad_identifier(self, planned):
        wanted = planned.message.numbers[3]
        if wanted and wanted != planned.identifier:
            return [Cause(self._fixed_words(planned) + ("" if self._why_no_identifier(planned.identifier)
                                                        else f": COB {planned.identifier:03X} would do, or 0"))]
        return self._why_no_identifier(wanted) if wanted else []

    def _why_no_identifier(self, wanted):
        """Why no message can have an identifier: a cause, or none."""
        other = self._identifiers.get(wanted)
        if other:
            return [Cause(f"{wanted:03X}h is the identifier of message {other}", other=other)]
        if wanted >= LEAST_IDENTIFIER and not is_restricted(wanted):
            return []
        service = next(service for low, high, service in SERVICES if low <= wanted <= high)
        return [Cause(f"{wanted:03X}h belongs to {service}")]

    def _fixed_words(self, planned):
        """That the TPDO of a message has a fixed identifier, in words."""
        message = planned.message
        tpdo = self.pdo(message.node, TPDO, message.tpdo)
        return (f"TPDO {message.tpdo} of {self._name(message.node)} is sent with {planned.identifier:03X}h alone, "
                f"as {tpdo.why_closed()}")

    def _no_identifier(self, planned):
        if planned.message.numbers[3]:
            return []
        if planned.identifier is None:
            return [Cause("no identifier from 681h to 6DFh is free")]
        return [cause._replace(words=f"{self._fixed_words(planned)}: {cause.words}")
                for cause in self._why_no_identifier(planned.identifier)]

    def _reserved_type(self, planned):
        kind = planned.message.numbers[0]
        words = f"the transmission types 241 to 251 are reserved, and this is {kind}"
        return [Cause(words)] if 241 <= kind <= 251 else []

    def _automatic(self, message):
        """The predefined identifier of a TPDO where it is free, else the least that is, else None."""
        predefined = [0x80 + 0x100 * message.tpdo + message.node] if message.tpdo <= 4 else []
        return next((each for each in (*predefined, *POOL) if each not in self._identifiers and each not in self._fixed), None)

    # Who has the PDOs.

    def sender_of(self, node, tpdo):
        """The message that a TPDO sends, None where none does."""
        return self._tpdos.get((node, tpdo))

    def rpdo_messages(self, node):
        """The clean messages that a node takes, by RPDO."""
        return {planned.rpdos[node][0]: planned for planned in self.messages.values() if not planned.faults and node in planned.rpdos}
