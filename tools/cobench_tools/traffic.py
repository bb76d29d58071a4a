"""What a network sends once it is operational: each identifier, how long its frames are, and how often they come."""
from . import matrix, values
from .device import object_name
from .project import PRODUCER_TIME
from .responses import LONGEST_BUSY
from .trace import has_stuff_bits
from .wire_bits import exact_bits
from .wiring import TPDO

SYNC, EMCY, TIME, SDO, HEARTBEAT = 0x080, 0x080, 0x100, 0x580, 0x700
EVENT_TYPES = 254, 255
LONGEST, STAMP = 8, 6     # bytes: of a frame at most, of TIME
UNSIGNED16 = 0x06
STATES = b"\x04", b"\x05", b"\x7f"     # of a node, in its heartbeat

# Bits of a frame without its bytes: fields and intermission; and those that, with its bytes, can have stuff bits. The
# second ones are those of a frame whose identifier has 29 bits.
FIXED_BITS, STUFFED_BITS = (47, 67), (34, 54)


def plain_bits(size, is_extended=False):
    """The bits of a frame without stuff bits."""
    return FIXED_BITS[is_extended] + 8 * size


def most_bits(size, is_extended=False):
    """The bits of a frame with the most stuff bits."""
    return plain_bits(size, is_extended) + (STUFFED_BITS[is_extended] + 8 * size - 1) // 4


class Traffic:
    """The frames of an identifier.

    identifier   by which the bus decides
    part         the part of the project that they are of, as `("message", "x_actual")`
    name         what they are, in words
    sender       the node that sends them
    size         their bytes
    period       the least microseconds between two, None where nothing bounds it
    syncs        with how many SYNC messages they come, 0 for other frames
    comes        how often they come, in words
    tpdo         the TPDO that sends them, None for other frames
    jitter       how much sooner than by their period they may come, beside that of SYNC
    is_extended  whether their identifier has 29 bits
    is_once      whether one comes, and no other for as long as anybody waits: an emergency, an SDO frame
    is_foreign   whether they are none of the network's
    known        all bytes that they can have, where these are known: of version 3
    """

    is_extended = is_once = is_foreign = False
    jitter, known = 0, ()

    def __init__(self, identifier, part, name, sender, size, period, comes):
        self.identifier, self.part, self.name, self.sender = identifier, part, name, sender
        self.size, self.period, self.comes = size, period, comes
        self.syncs, self.tpdo, self.is_assumed = 0, None, False

    @property
    def plain_bits(self):
        """The bits of a frame without stuff bits."""
        return plain_bits(self.size, self.is_extended)

    @property
    def most_bits(self):
        """The bits of a frame with the most stuff bits that it can have."""
        most = most_bits(self.size, self.is_extended)
        return max((exact_bits(self.identifier, data) for data in self.known), default=most)

    @property
    def least_bits(self):
        """The bits of the shortest frame."""
        return min((exact_bits(self.identifier, data) for data in self.known), default=self.plain_bits)

    @property
    def priority(self):
        """By what the bus decides: of an equal start an identifier of 11 bits goes first."""
        rest = 1 << 18 | self.identifier & 0x3FFFF if self.is_extended else 0
        return (self.identifier >> 18 if self.is_extended else self.identifier) << 19 | rest

    def has_deadline(self):
        """Whether they have to be there within some time."""
        return self.period is not None and not self.is_once and not self.is_foreign

    def is_of_sync(self):
        """Whether SYNC sends them."""
        return self.syncs > 0

    def has_event_time_alone(self):
        """Whether they come by an event time, and at each change too, since no inhibit time prevents it."""
        return bool(self.tpdo and not self.is_of_sync() and self.tpdo.event and not self.tpdo.inhibit)


def traffic_of(network, assumed=None, foreign=()):
    """All frames by priority; `assumed` are the microseconds for those without a bound, `foreign` those of others."""
    found = [sync(network), time_stamp(network)] + heartbeats(network) + [pdo(network, tpdo) for tpdo in network.tpdos]
    found = [each for each in found if each]
    for each in found if has_stuff_bits(network.project) else ():
        each.known = known_bytes(network, each)
    for each in found:
        if each.period is None and assumed:
            each.period, each.is_assumed = assumed, True
    found += emergencies(network) + sdo(network) + list(foreign)
    return sorted(found, key=lambda each: (each.priority, each.sender or 0))


def known_bytes(network, each):
    """All bytes that SYNC and heartbeats can have, none of other frames."""
    if each.tpdo or each.identifier == TIME:
        return []
    return STATES if each.identifier != SYNC else [bytes([count]) for count in range(1, network.project.sync_counter + 1)] or [b""]


def emergencies(network):
    """An emergency message of each node: at worst all of them come at once, as where the manager falls silent."""
    return [once(EMCY + number, ("node", number), f"EMCY of {network.name(number)}", number,
                 "an emergency of each node at once")
            for number in sorted(network.nodes)]


def sdo(network):
    """One SDO frame of the manager, as long as there are: it may have started just before any other."""
    manager = network.project.manager[0]
    return [once(SDO + number, ("manager",), "SDO", manager, "one frame at a time") for number in network.project.booted[:1]]


def once(identifier, part, name, sender, comes):
    """A frame of the greatest length that comes once."""
    found = Traffic(identifier, part, name, sender, LONGEST, LONGEST_BUSY, comes)
    found.is_once = True
    return found


def sync(network):
    """SYNC, or None where the manager sends none."""
    manager, period, _, _ = network.project.manager
    size = 1 if network.project.sync_counter else 0
    return Traffic(SYNC, ("manager",), "SYNC", manager, size, period, f"each {time_text(period)}") if period else None


def time_stamp(network):
    """TIME, or None where the manager sends none."""
    if not network.project.time:
        return None
    period, _ = network.project.time
    return Traffic(TIME, ("time-period",), "TIME", network.project.manager[0], STAMP, period, f"each {time_text(period)}")


def heartbeats(network):
    """The heartbeats of the manager and of the nodes; an event may set a node's to come more often."""
    periods = {number: [time] for number, time in matrix.producers(network).items()}
    for event in network.project.events.values():
        if sets_heartbeat(network.project, event):
            periods.setdefault(event.node, []).append(values.number_of(UNSIGNED16, event.what, event.node) or 0)
    found = []
    for number, times in periods.items():
        period = 1000 * min(filter(None, times), default=0)
        part = ("manager",) if number == network.project.manager[0] else ("node", number)
        if period:
            found.append(Traffic(HEARTBEAT + number, part, f"heartbeat of {network.name(number)}", number, 1, period,
                                 f"each {time_text(period)}"))
    return found


def sets_heartbeat(project, event):
    """Whether an event sets how often a node sends its heartbeat, up to the horizon."""
    is_set = event.kind == "set" and event.entry == PRODUCER_TIME and event.time <= project.horizon
    return is_set and not project.is_idle(event)


def pdo(network, tpdo):
    """The frames of a TPDO, None where it is never sent."""
    message = network.message_of(tpdo)
    part = ("message", message) if message else ("node", tpdo.node)
    name = message or f"{TPDO} {tpdo.number} of {network.name(tpdo.node)}"
    period, comes = how_often(network, tpdo)
    if comes is None:
        return None
    found = Traffic(tpdo.identifier, part, name, tpdo.node, tpdo.size, period, comes)
    found.tpdo, found.syncs = tpdo, max(tpdo.kind, 1) if tpdo.kind <= 240 else 0
    return found


def how_often(network, tpdo):
    """The least microseconds between two frames of a TPDO, None for no bound; and in words, None for never."""
    sync_period = network.project.manager[1]
    if tpdo.kind is not None and tpdo.kind <= 240:
        return max(tpdo.kind, 1) * sync_period, matrix.when(tpdo) if sync_period else None
    if tpdo.kind not in EVENT_TYPES:
        return None, None
    if tpdo.inhibit:
        return 100 * tpdo.inhibit, f"when changed, at most each {time_text(100 * tpdo.inhibit)}"
    if tpdo.event:
        return 1000 * tpdo.event, f"each {tpdo.event} ms, if not changed before"
    return None, "whenever changed"


def time_text(time):
    """Microseconds in words."""
    return f"{time / 1000:g} ms" if time >= 1000 else f"{time} us"


def why_no_bound(network, traffic):
    """What bounds how often the frames of a TPDO come, where nothing does."""
    tpdo = traffic.tpdo
    inhibit = 0x17FF + tpdo.number, 3
    if network.message_of(tpdo):
        return ("it is sent whenever a value changes, as it has no inhibit time and no event time; INHIBIT of its message "
                "bounds it")
    there = network.nodes[tpdo.node].device.entries.get(inhibit)
    bound = (f"a message of this TPDO with INHIBIT, which writes {object_name(inhibit)}, bounds it" if there
             else "the device has no inhibit time for it")
    return f"it is on by the defaults of the data sheet, and sent whenever a value changes; {bound}"
