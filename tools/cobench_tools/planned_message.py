"""What the plan makes of one message, and why it can't make PDOs of it, in words."""
from collections import namedtuple

DUMMIES = {1: 0x01, 8: 0x05, 16: 0x06, 32: 0x07}     # the data type of the dummy of each width


class Cause(namedtuple("Cause", "words node part other code")):
    """Why a message has a fault.

    words  the cause
    node   the number of the receiver at fault, None where it is the sender
    part   which part of the message it is about: `("source", 1)`, `("sink", 1, 5)`, `("start",)`, or () for all of it
    other  the name of the message that has what this one would need, None where it isn't that
    code   the code of the diagnostic
    """

    __slots__ = ()

    def __new__(cls, words, node=None, part=(), other=None, code=""):
        return super().__new__(cls, words, node, part, other, code)


class Planned:
    """What the plan makes of a message.

    faults      its faults in the order of their codes, each a Cause; without one it is clean
    identifier  the COB-ID of its frames
    mapping     the mapping entries of its TPDO, None of a source that has no width
    rpdos       the RPDO of each consumer, and the mapping entries of that
    """

    def __init__(self, name, message):
        self.name, self.message = name, message
        self.faults, self.identifier, self.mapping, self.rpdos = [], None, [], {}

    @property
    def sources(self):
        """Its sources by position."""
        return sorted(self.message.sources.items())

    @property
    def consumers(self):
        return sorted({node for _, node in self.message.sinks})

    def dummies(self, node):
        """The sub-indexes at which a consumer's RPDO maps dummies."""
        return [sub for sub, (position, _) in enumerate(self.sources, 1) if (position, node) not in self.message.sinks]

    def milliseconds(self, node):
        """The event time that a receive gives a consumer, 0 for none."""
        return self.message.receives.get(node, (0, 0))[1]


def numbers_text(numbers):
    """Numbers in words: `1, 2, 5`, `1 to 4`, `none`."""
    if len(numbers) > 2 and numbers[-1] - numbers[0] == len(numbers) - 1:
        return f"{numbers[0]} to {numbers[-1]}"
    return ", ".join(map(str, numbers)) or "none"


def first_sink(planned, node):
    """The part of a message that is the first sink of a consumer."""
    return "sink", min(position for position, each in planned.message.sinks if each == node), node


def why_no_dummy(bits):
    """Why a consumer can't skip that many bits."""
    if bits not in DUMMIES:
        return f"there is no dummy of {bits} bits to skip it"
    return f"allows no dummy of {bits} bits to skip it ([DummyUsage] Dummy000{DUMMIES[bits]})"
