"""What the objects of a PDO can carry, by the data sheet of its node: docs/rules/messages.md.

In versions 1 and 2 what is wanted of a PDO has to be written. In version 3 what stands by default serves too, and a PDO
is closed where its COB-ID can't be written: its identifier is fixed, and the transmission type and the event time alone
are written of it. A PDO that no clean message uses is turned off."""
from .concise_dcf import Write
from .values import UNSIGNED8, UNSIGNED16, UNSIGNED32, fixed_length
from .write_check import EXTENDED, IDENTIFIER, OFF, Dictionary, is_restricted

COB_ID, TYPE, INHIBIT, EVENT, START = 1, 2, 3, 5, 6             # sub-indexes of a communication object
TYPES = {COB_ID: UNSIGNED32, TYPE: UNSIGNED8, INHIBIT: UNSIGNED16, EVENT: UNSIGNED16, START: UNSIGNED8}
TPDO, RPDO = 0x1800, 0x1400                                     # the communication object of number 1
OTHER_DUMMY = {0x00050008: 0x00020008, 0x00060010: 0x00030010, 0x00070020: 0x00040020}

def is_synchronous(kind):
    return kind is not None and kind <= 240

def write_of(index, sub, kind, number):
    return Write((index, sub), number.to_bytes(fixed_length(kind), "little"))

def numbers_of(project, node, base):
    """The numbers of the PDOs that a node has, by their communication objects."""
    return [index - base + 1 for index in sorted(project.sheet(node).shape(node).indices) if base <= index < base + 512]

class PdoObjects(Dictionary):
    """Those of a PDO of a node at power-on."""
    def __init__(self, project, node, base, number):
        super().__init__(project.sheet(node).shape(node), project.sheet(node).defaults(node))
        self.communication, self.mapping, self.receives = base + number - 1, base + number + 0x1FF, base == RPDO
        self.defaults_serve = project.version >= 3

    def is_writable(self, index, sub, kind):
        """The entry is there with that type, and is neither ro nor const."""
        return self.shape.has_type(index, sub, kind) and self.shape.entry(index, sub).is_writable()

    def default(self, index, sub, kind):
        """None where the entry isn't there with that type, or where no default serves."""
        return self.number_at(index, sub, kind) if self.defaults_serve else None

    # -------------------------------------------------------- the identifier
    def is_open(self):
        return self.is_writable(self.communication, COB_ID, UNSIGNED32)

    def default_cob_id(self):
        """Of a PDO whose default is on, else None."""
        cob_id = self.default(self.communication, COB_ID, UNSIGNED32)
        return None if cob_id is None or cob_id & OFF else cob_id

    def identifier_by_default(self):
        """None also of one with an identifier of 29 bits."""
        cob_id = self.default_cob_id()
        return None if cob_id is None or cob_id & EXTENDED else cob_id & IDENTIFIER

    def fixed_identifier(self):
        return None if self.is_open() else self.identifier_by_default()

    def off_writes(self):
        """The write that turns it off; none where it is off by default, or can't be turned off."""
        if not self.is_open() or self.default_cob_id() is None:
            return []
        write = write_of(self.communication, COB_ID, UNSIGNED32, self.default_cob_id() | OFF)
        return [write] if self.shape.entry(*write.place).value_check(write.data) is None else []

    def identifier_that_stays(self):
        """That of a PDO which is on by default and can't be turned off, or None."""
        return None if self.off_writes() else self.identifier_by_default()

    def sends_by_default(self):
        """It is on with an identifier that stays, and maps something."""
        identifier, count = self.identifier_that_stays(), self.default(self.mapping, 0, UNSIGNED8)
        return identifier is not None and not is_restricted(identifier) and count not in (None, 0)

    # ----------- the mapping: an item of None is one of which nothing can be wanted
    def writes_mapping(self, items):
        return (self.is_open() and (len(items) >= 1 or not self.defaults_serve)
                and self.is_writable(self.mapping, 0, UNSIGNED8)
                and all(self.is_writable(self.mapping, sub, UNSIGNED32) for sub, _ in enumerate(items, 1)))

    def mapping_stands(self, items, dummies):
        return (len(items) >= 1 and self.default(self.mapping, 0, UNSIGNED8) == len(items)
                and all(self.item_stands(sub, item, sub in dummies) for sub, item in enumerate(items, 1)))

    def item_stands(self, sub, item, is_dummy):
        """Where a dummy is wanted, the other dummy of its width serves too, if the consumer allows it."""
        default, other = self.default(self.mapping, sub, UNSIGNED32), OTHER_DUMMY.get(item)
        is_other = is_dummy and other is not None and default == other and other >> 16 in self.shape.dummies
        return item is not None and (default == item or is_other)

    def mapping_serves(self, items, dummies=()):
        return self.writes_mapping(items) or self.mapping_stands(items, dummies)

    # -------------------------------------------------------- the parameters
    def can_be_set(self, sub):
        return self.is_writable(self.communication, sub, TYPES[sub]) and (self.is_open() or sub in (TYPE, EVENT))

    def is_written(self, sub, value):
        """In version 3 a time or start value of 0 that lies outside the entry's limits isn't written."""
        may_be_left_out = self.defaults_serve and value == 0 and sub in (INHIBIT, EVENT, START)
        return self.can_be_set(sub) and not (
            may_be_left_out and self.shape.entry(self.communication, sub).value_check(b"\x00"))

    def parameter_serves(self, sub, value):
        default = self.default(self.communication, sub, TYPES[sub])
        if self.can_be_set(sub):
            return True
        if sub == TYPE:
            return default is not None and self.type_stands(value, default)
        return value == (default or 0)

    def type_stands(self, kind, default):
        """A default serves a message of that transmission type."""
        if self.receives and is_synchronous(kind):
            return is_synchronous(default)
        return default in (254, 255) if self.receives or kind in (254, 255) else default == kind

    # --------------------------------------------------------- the whole PDO
    def sends(self, message, items):
        values = {TYPE: message.type, INHIBIT: message.inhibit, EVENT: message.event, START: message.start}
        return ((self.is_open() or self.fixed_identifier() is not None) and self.mapping_serves(items)
                and all(self.parameter_serves(sub, value) for sub, value in values.items()))

    def receives_message(self, message, identifier, items, dummies):
        has_identifier = self.is_open() or identifier is not None and self.fixed_identifier() == identifier
        return has_identifier and self.mapping_serves(items, dummies) and self.parameter_serves(TYPE, message.type)
