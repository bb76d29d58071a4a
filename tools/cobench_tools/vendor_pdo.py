"""PDOs as vendors make them, for scripts of version 3: what can't be written serves as it stands by default (docs/rules/messages.md).

A PDO is open where its COB-ID can be written, else closed; a closed one has a fixed identifier where its default is on.
"""
from . import values
from .pdo_objects import COB_ID, EVENT, INHIBIT, START, TYPE, UNSIGNED8, UNSIGNED32, PdoObjects, SentOrTaken
from .wiring import EXTENDED, OFF

IDENTIFIER = 0x7FF
SYNCHRONOUS, EVENT_TYPES = range(241), (254, 255)
OTHER_DUMMY = {0x00050008: 0x00020008, 0x00060010: 0x00030010, 0x00070020: 0x00040020}


def pdo_objects(version, device, node, direction, number):
    """The objects of a PDO of a node, by the rules of a version of scripts."""
    return (VendorPdo if version >= 3 else SentOrTaken)(device, node, direction, number)


class VendorPdo(PdoObjects):
    """The objects of one PDO of a node, by the rules of version 3."""

    def default(self, key, kind):
        """The number that an entry has by default, None where it isn't there with that type."""
        entry = self.device.entries.get(key)
        return int.from_bytes(values.default_of(entry, self.node), "little") if entry and entry.kind == kind else None

    def allows(self, key, number):
        """Whether a number is within the limits of an entry that is there."""
        low, high = values.limits_of(self.device.entries[key], self.node)
        return (low is None or low <= number) and (high is None or number <= high)

    # Whether it is on, and by which identifier.

    def default_cob_id(self):
        return self.default(*self.parameter(COB_ID))

    def why_closed(self):
        """Why its COB-ID can't be written, in words, None of an open one."""
        return self.why_not(*self.parameter(COB_ID))

    def is_open(self):
        return self.why_closed() is None

    def is_on_by_default(self):
        return self.default_cob_id() is not None and not self.default_cob_id() & OFF

    def identifier_by_default(self):
        """That of a PDO which is on by default; None also of one with an identifier of 29 bits."""
        cob_id = self.default_cob_id()
        return cob_id & IDENTIFIER if self.is_on_by_default() and not cob_id & EXTENDED else None

    def fixed_identifier(self):
        """The identifier of a PDO whose COB-ID can't be written, or None."""
        return None if self.is_open() else self.identifier_by_default()

    def off_write(self):
        """The COB-ID that turns it off where no message uses it; None where it is off, or can't be turned off."""
        if not self.is_open() or not self.is_on_by_default():
            return None
        off = self.default_cob_id() | OFF
        return off if self.allows(self.parameter(COB_ID)[0], off) else None

    def identifier_that_stays(self):
        """The identifier of a PDO that is on by default and can't be turned off, or None."""
        return self.identifier_by_default() if self.off_write() is None else None

    # Its parameters.

    def can_be_set(self, sub):
        return self.takes(*self.parameter(sub)) and (self.is_open() or sub in (TYPE, EVENT))

    def is_written(self, sub, number):
        """A time or start value of 0 that is outside the limits of its entry isn't written."""
        is_zero = number == 0 and sub in (INHIBIT, EVENT, START)
        return self.can_be_set(sub) and (not is_zero or self.allows(self.parameter(sub)[0], 0))

    def serves(self, sub, number):
        """Whether a parameter has a number, or can have it."""
        default = self.default(*self.parameter(sub))
        if self.can_be_set(sub):
            return True
        if sub == TYPE:
            return default is not None and self._type_stands(number, default)
        return number == (default or 0)

    def _type_stands(self, kind, default):
        """Whether a transmission type that stands by default serves a message of a type."""
        if self.receives and kind in SYNCHRONOUS:
            return default in SYNCHRONOUS
        return default in EVENT_TYPES if self.receives or kind in EVENT_TYPES else default == kind

    def why_not_set(self, sub, number):
        """Why a parameter can't have a number: its entry and words, or None."""
        if self.serves(sub, number):
            return None
        key, kind = self.parameter(sub)
        default, why = self.default(key, kind), self.why_not(key, kind)
        if why is None:
            why = f"{self.described(key)} is {default} by default, and can't be set, as {self.why_closed()}"
        elif default is not None:
            why += f" and {default} by default"
        return key, f"{why}; {number} is wanted"

    # Its mapping. An item of None is one of which nothing can be wanted.

    def writes_mapping(self, items):
        return self.is_open() and len(items) >= 1 and all(self.takes(*each) for each in self.mapped(len(items)))

    def why_not_mapped(self, items, dummies=()):
        """Why it can't have these mapping entries: the entry at fault and words, or None."""
        if self.writes_mapping(items):
            return None
        if not items:
            return (self.mapping, 0), "a PDO of no values can't be used"
        other = self._other_by_default(items, dummies)
        if other is None:
            return None
        reasons = (self.why_not(*each) for each in [self.parameter(COB_ID)] + self.mapped(len(items)))
        why = next(filter(None, reasons))
        return other[0], f"its mapping can't be written, as {why}; {other[1]}"

    def _other_by_default(self, items, dummies):
        """The first entry of the mapping that isn't by default what is wanted, and in words what it is."""
        key = self.mapping, 0
        count = self.default(key, UNSIGNED8)
        if count != len(items):
            is_count = "" if count is None else f"{self.described(key)} is {count} by default, and "
            return key, f"{is_count}{len(items)} is wanted"
        for sub, item in enumerate(items, 1):
            key, default = (self.mapping, sub), self.default((self.mapping, sub), UNSIGNED32)
            if not self._stands(item, default, sub in dummies):
                is_default = "" if default is None else f"{self.described(key)} is {default:08X}h by default, and "
                return key, is_default + ("nothing can be wanted there" if item is None else f"{item:08X}h is wanted")
        return None

    def _stands(self, item, default, is_dummy):
        """Where a dummy is wanted, the other one of its width serves too, if the consumer allows it."""
        other = OTHER_DUMMY.get(item) if is_dummy else None
        is_other = other is not None and default == other and self.device.allows_dummy(other >> 16)
        return item is not None and (default == item or is_other)

    # The whole PDO.

    def why_not_there(self):
        """Why it is no PDO that can be used: the entry at fault and words, or None."""
        for key, kind in (self.parameter(COB_ID), self.mapped(0)[0]):
            if self.default(key, kind) is None:
                return key, self.why_not(key, kind)
        return None

    def why_not_sent(self, message, items):
        """Why it can't send a message: the entry at fault and words, or None."""
        kind, inhibit, event, _ = message.numbers
        given = {TYPE: kind, INHIBIT: inhibit, EVENT: event, START: message.start}
        return (self.why_not_there() or self._why_silent() or self.why_not_mapped(items)
                or next(filter(None, (self.why_not_set(*each) for each in given.items())), None))

    def _why_silent(self):
        """Why it is never sent with an identifier: the entry at fault and words, or None."""
        if self.is_open() or self.fixed_identifier() is not None:
            return None
        what = "has an identifier of 29 bits" if self.is_on_by_default() else "is off"
        return self.parameter(COB_ID)[0], f"{self.why_closed()}, and {what} by default ({self.default_cob_id():08X}h)"

    def why_not_taken(self, message, identifier, items, dummies=()):
        """Why it can't take a message, in words, or None."""
        kind = 0 if message.numbers[0] in SYNCHRONOUS else 255
        fault = self.why_not_there() or self.why_not_mapped(items, dummies) or self.why_not_set(TYPE, kind)
        return fault[1] if fault else self._why_other_identifier(identifier)

    def _why_other_identifier(self, identifier):
        """Why it doesn't take an identifier, in words, or None."""
        if self.is_open() or identifier is not None and self.fixed_identifier() == identifier:
            return None
        fixed = self.fixed_identifier()
        if fixed is None:
            return self._why_silent()[1]
        return f"its identifier is {fixed:03X}h, as {self.why_closed()}"
