"""Why a PDO is sent or taken beside the plan, why a device refuses what the plan writes into one, and why a `receive` does nothing."""
from . import values
from .digits import hexadecimal
from .pdo_objects import COB_ID, EVENT, START
from .pdo_writes import writes_of
from .safe_text import shortened
from .wiring import OFF, RPDO, TPDO, pdo_of


class PdoCauses:
    """The causes of what `diag` says of PDOs by the rules of version 3, over the evidence of a session."""

    def __init__(self, evidence):
        self.evidence, self.plan, self.origins = evidence, evidence.plan, evidence.origins

    def of(self, words):
        """FILE:LINE of a diagnostic, who it is about, and the cause, by the words of its subject."""
        what, *rest = words
        if what == "receive":
            return self.receive(rest[0], int(rest[1]))
        if what == "limit":
            return self.limit(int(rest[0]), (hexadecimal(rest[1]), hexadecimal(rest[2])))
        node, number = int(rest[0]), int(rest[1])
        text = self.sent_beside(node, number) if what == "tpdo" else self.taken_beside(node, number)
        return self.origins.place("node", node), self.evidence.node_name(node), text

    # PDOs that can't be turned off.

    def sent_beside(self, node, number):
        tpdo = self.plan.pdo(node, TPDO, number)
        return f"TPDO {number} is sent with {tpdo.identifier_that_stays():03X}h though no message uses it: {self.why_on(tpdo)}"

    def taken_beside(self, node, number):
        rpdo = self.plan.pdo(node, RPDO, number)
        identifier = rpdo.identifier_that_stays()
        name = next((name for name, each in self.plan.messages.items() if not each.faults and each.identifier == identifier), "")
        return f"RPDO {number} takes message {name} ({identifier:03X}h), which isn't planned for it: {self.why_on(rpdo)}"

    def why_on(self, pdo):
        """Why a PDO that is on by default can't be turned off, in words."""
        key = pdo.parameter(COB_ID)[0]
        entry = pdo.device.entries[key]
        where = self.evidence.sheet_place(pdo.node, entry.line_of("accesstype" if pdo.why_closed() else "highlimit"))
        return f"{pdo.why_closed() or f'the limits of {pdo.described(key)} have no {pdo.default_cob_id() | OFF:08X}h'} ({where})"

    # What is written into PDOs.

    def limit(self, node, key):
        """Which write of an entry is outside its limits."""
        direction, number = pdo_of(key[0])
        entry, pdo = self.evidence.device(node).entries[key], self.plan.pdo(node, direction, number)
        written = next(value for each, value in writes_of(self.plan, node)[direction, number] if each == key and not pdo.allows(key, value))
        low, _ = values.limits_of(entry, node)
        side, name, text = ("below", "LowLimit", entry.low) if low is not None and written < low else ("above", "HighLimit", entry.high)
        where = self.evidence.sheet_place(node, entry.line_of(name.lower()))
        message = self.message_of(node, direction, number)
        shown = f"{written:08X}h" if key[1] == COB_ID or key[0] == pdo.mapping and key[1] else f"{written}"
        text = (f"{self.evidence.entry_name(node, key)}: {shown}, which message {message} needs there, is {side} the {name} "
                f"{shortened(text)} ({where}): the device refuses it, and isn't configured")
        return self.place(message, node, direction, pdo, key), self.evidence.node_name(node), text

    def message_of(self, node, direction, number):
        """The name of the message that a PDO sends or takes."""
        return self.plan.sender_of(node, number) if direction == TPDO else self.plan.rpdo_messages(node)[number].name

    def place(self, name, node, direction, pdo, key):
        """FILE:LINE of what has a message write an entry of a PDO."""
        planned, sub = self.plan.messages[name], key[1]
        if key[0] == pdo.mapping and 1 <= sub <= len(planned.sources):
            position = planned.sources[sub - 1][0]
            part = ("source", name, position) if direction == TPDO else ("sink", name, position, node)
        elif key[0] == pdo.mapping or direction == TPDO and sub != START:
            part = "message", name
        else:
            part = ("start", name) if direction == TPDO else ("receive", name, node) if sub == EVENT else ("message", name)
        return self.origins.place(*(part if self.origins.command(*part) else ("message", name)))

    # Receives that do nothing.

    def receive(self, name, node):
        planned, place = self.plan.messages[name], self.origins.place("receive", name, node)
        who = f"message {name}"
        if node not in planned.consumers:
            return place, who, f"{self.evidence.node_name(node)} has no sink of it, so this receive does nothing"
        number = planned.rpdos[node][0]
        why = self.plan.pdo(node, RPDO, number).why_not_set(EVENT, planned.milliseconds(node))[1]
        return place, who, f"RPDO {number} of {self.evidence.node_name(node)} doesn't watch for it: {why}"
