"""A bus with a clock of its own, on which time passes while its user waits: what comes when doesn't depend on the computer.

It stands in for a bus of python-can. Frames take the time that they have on the wire, and the lowest identifier goes first.
"""
import collections
import contextlib
import math

from bus_running import NEVER, SYNC
from bus_scene import Received, python_can

from cobench_tools.bus.connection import Connection

BEGINS = 1_800_000_000      # seconds, when its clock is at 0
ANSWERS = range(0x580, 0x600)


class Clock:
    """What `time` is elsewhere; `now` are the microseconds since it began, and `sleep` has the bus go on."""

    def __init__(self, sleep):
        self.now, self.sleep = 0, sleep

    def monotonic(self):
        return self.now / 1e6

    def time(self):
        return BEGINS + self.now / 1e6


class Manager:
    """What the manager of a plan sends by itself, at the multiples of its periods."""

    def __init__(self, plan):
        self.heartbeat, self.sync, self.counter = plan.manager_heartbeat, plan.sync, plan.counter
        self.number, self.sent = plan.manager, 0

    def by_itself(self, now):
        if now == self.sent:
            return []
        self.sent, found = now, []
        if self.heartbeat and now % self.heartbeat == 0:
            found.append((0x700 + self.number, b"\5"))
        if self.sync and now % self.sync == 0:
            found.append((SYNC, bytes([(now // self.sync - 1) % self.counter + 1] if self.counter else [])))
        return found

    def due(self, now):
        return min((now // period + 1) * period for period in (self.heartbeat or NEVER, self.sync or NEVER))

    def take(self, identifier, data):
        """It boots nobody."""
        return []


Sent = collections.namedtuple("Sent", "sender identifier data")


class ClockedBus(Received):
    """The bus.

    senders   its devices and its manager
    waiting   the frames that wait for it, `wire` the one that it carries, and `free` when that is over
    arrived   what has come for the user
    recorded  each frame, with the time at which it was over
    """

    def __init__(self, senders, kilobits):
        self.can, self.senders, self.micros = python_can(), senders, 1000 // kilobits
        self.clock, self.waiting, self.wire, self.free = Clock(self.run), [], None, NEVER
        self.arrived, self.recorded, self.frames = collections.deque(), [], []

    # As python-can has it.

    def send(self, message, timeout=None):
        self.waiting.append(Sent(self, message.arbitration_id, bytes(message.data)))

    def recv(self, seconds):
        self.run(seconds, lambda: self.arrived)
        return self.arrived.popleft() if self.arrived else None

    def shutdown(self):
        """It goes on without its user."""

    # As time passes.

    def run(self, seconds, is_over=lambda: False):
        """Goes on for some seconds, or until something is so."""
        until = self.clock.now + math.ceil(seconds * 1e6)
        self.instant()
        while not is_over() and self.clock.now < until:
            now = self.clock.now
            self.clock.now = min([until, self.free] + [sender.due(now) for sender in self.senders])
            self.instant()

    def instant(self):
        """What happens at this moment."""
        if self.clock.now == self.free:
            self.deliver()
        for sender in self.senders:
            self.put(sender, sender.by_itself(self.clock.now))
        if self.wire is None and self.waiting:
            self.wire = min(self.waiting, key=lambda sent: sent.identifier)
            self.waiting.remove(self.wire)
            self.free = self.clock.now + (47 + 8 * len(self.wire.data)) * self.micros

    def deliver(self):
        """The frame on the wire is over: all others have it."""
        (sender, identifier, data), self.wire, self.free = self.wire, None, NEVER
        self.recorded.append((self.clock.now, identifier, data))
        if sender is self:
            self.frames.append((identifier, data))
        self.arrived.append(self.can.Message(timestamp=self.clock.time(), arbitration_id=identifier, data=data,
                                             is_extended_id=False, is_rx=sender is not self))
        for each in self.senders:
            if each is not sender:
                self.put(each, each.take(identifier, data))

    def put(self, sender, frames):
        """Frames of a sender wait, each in the place of an older one of its identifier but for SDO answers."""
        for identifier, data in frames:
            same = [sent for sent in self.waiting if sent[:2] == (sender, identifier) and identifier not in ANSWERS]
            if same:
                self.waiting[self.waiting.index(same[0])] = Sent(sender, identifier, data)
            else:
                self.waiting.append(Sent(sender, identifier, data))


@contextlib.contextmanager
def used(bus):
    """`cobtool bus` uses this bus, and goes by its clock; what came before is gone, as it had nobody to take it."""
    bus.arrived.clear()
    kept = bus.can.Bus, Connection.clock
    bus.can.Bus, Connection.clock = lambda **_: bus, bus.clock
    try:
        yield
    finally:
        bus.can.Bus, Connection.clock = kept
