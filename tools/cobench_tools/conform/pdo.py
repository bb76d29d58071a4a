"""Follows TPDOs: their length, their values, and when they come.

What costs is done for each frame: so a frame that comes as the one before it did is let pass at once.
"""
from .. import device
from ..logs.rows import key_of
from .plan import milliseconds
from .tolerance import NEVER


class Pdo:
    """A TPDO as it was recorded.

    last, line  the time and line of its last frame, None before the first one
    data        the digits of its last frame, if they were as they have to be
    digits      how many digits its frames have
    was_seen    whether one came at all, the first in `first_line`; `rested` is when it was to begin anew
    """

    needs_sync, step = False, 0

    def __init__(self, judge, node, tpdo):
        self.judge, self.node, self.tpdo = judge, node, tpdo
        self.last, self.line, self.data, self.digits = None, 0, None, 2 * tpdo.size
        self.limits, self.about = judge.plan.limits(tpdo), judge.plan.about(tpdo)
        self.name, self.key = judge.plan.pdo_name(tpdo), key_of(tpdo.identifier)
        self.was_seen, self.first_line, self.rested = False, None, 0

    @property
    def subject(self):
        return [f"{self.tpdo.identifier:03X}"]

    def tell(self, code, text, time, line, notes=()):
        self.node.tell(code, self.subject, f"{self.title}{text}", time, line, notes, about=self.about)

    @property
    def title(self):
        """How a finding of it begins."""
        who = "" if self.about[0] == "message" else f"TPDO {self.tpdo.number} "
        return f"{who}{self.tpdo.identifier:03X}h: "

    def take(self, time, data, number):
        """A frame of it came."""
        if data != self.data:
            self.changed(data, time, number)
        if self.last is None:
            self.first(time, number)
        self.last, self.line = time, number

    def first(self, time, number):
        """A frame came with which its count begins."""
        if self.node.first is None:
            self.node.hear(time, number)
        if not self.was_seen:
            self.was_seen, self.first_line = True, number
        self.node.sends(self.name, time, number)

    def changed(self, data, time, number):
        """Its frame has other bytes than the one before it."""
        self.data = data
        if len(data) != self.digits:
            self.tell("pdo-length", f"it has {len(data) // 2} bytes, and {self.tpdo.size} are planned", time, number)
            self.data = None
        elif self.limits:
            self._judge_values(data, time, number)

    def _judge_values(self, data, time, number):
        """Whether the values are within the limits of the data sheets; it looks again as long as they aren't."""
        whole = int.from_bytes(bytes.fromhex(data), "little")
        for limit in self.limits:
            value = limit.number(whole)
            if limit.is_broken(value):
                self.data = None
                entry = f"{device.object_name(limit.part.key)} {limit.part.entry.name}".rstrip()
                self.tell("pdo-limit", f"{value} is {self._beyond(limit, value)} of {entry} of {limit.name}", time, number)

    @staticmethod
    def _beyond(limit, value):
        if limit.low is not None and value < limit.low:
            return f"below the low limit {limit.low}"
        return f"above the high limit {limit.high}"

    # What a command or a boot makes of it.

    def tolerate(self):
        """Works out what is allowed."""

    def forget(self, time=0):
        """What comes next is the first one; it has to come from a time on."""
        self.last, self.rested = None, time

    def start(self, time, line):
        """Its node was started."""

    def tell_absent(self, code, text, spot):
        """It never came."""
        if not self.judge.strays.stands_for(self, spot.time, self.judge.end):
            self.judge.causes.tell_absent(code, self.subject, self.about, f"{self.title}{text}", spot)

    def due(self):
        """When the next one has to come."""
        return self.last

    def is_judged(self):
        """Whether it says when it is to come."""
        return False

    def is_overdue(self, time):
        """Whether one should have come by now."""
        return False

    def is_late(self, time):
        """The same, for gaps."""
        return self.is_overdue(time)

    def comes_by_itself(self):
        """Whether it has a period of its own."""
        return False

    def finish(self, end):
        """The log is over."""

    def tell_over(self, end):
        """None came up to the end, though one should have come."""


class EventPdo(Pdo):
    """A TPDO of type 254 or 255.

    low, high  the least and the greatest microseconds between two frames
    started    the line of the command from which its event time counts, where no frame has come since
    """

    def __init__(self, judge, node, tpdo):
        super().__init__(judge, node, tpdo)
        self.inhibit, self.event = 100 * tpdo.inhibit, 1000 * tpdo.event
        self.period = max(self.inhibit, self.event) if self.event else 0
        self.started = -1
        self.tolerate()

    def tolerate(self):
        """Works out what is allowed."""
        tolerance = self.judge.tolerance
        self.low = self.inhibit - tolerance.of(self.inhibit) if self.inhibit else -1
        self.high = self.period + tolerance.of(self.period) if self.event else NEVER

    def take(self, time, data, number):
        """A frame of it came."""
        if data != self.data:
            self.changed(data, time, number)
        if self.last is None:
            self.first(time, number)
        elif not self.low <= time - self.last <= self.high:
            self._look(time, number)
        self.last, self.line = time, number

    def _look(self, time, number):
        """A frame that comes too soon or too late."""
        gap = time - self.last
        if gap < self.low:
            since = None if self.line == self.started else self.judge.bus.waited_since(self.line)
            if since is not None and time - since >= self.low:
                self.judge.causes.add_wait(self.key, time, -gap)
            elif self.line != self.started and not self.judge.causes.has_wait(self.key, time, -gap):
                self.tell("pdo-inhibit", f"it comes {milliseconds(gap)} after the last one, and its inhibit time is "
                          f"{milliseconds(self.inhibit)}", time, number, [(self.line, "the one before")])
            return
        since = self.judge.bus.waited_since(number, self.last + self.period)
        if since is not None and since <= self.last + self.high:
            self.judge.causes.add_wait(self.key, time, gap)
            return
        if self.judge.causes.has_wait(self.key, time, gap) or self.node.was_silent(self, time, number):
            return
        if not self.judge.strays.stands_for(self, self.last, time):
            self.tell("pdo-event", f"it comes {milliseconds(gap)} after the last one, and its event time is {milliseconds(self.period)}",
                      time, number, [(self.line, "the one before")])

    def start(self, time, line):
        if self.event:
            self.last = time
            self.line = self.started = line

    def due(self):
        return self.last + self.period

    def is_judged(self):
        return self.last is not None and self.event > 0

    def comes_by_itself(self):
        return self.event > 0

    def is_overdue(self, time):
        return self.is_judged() and time - self.last > self.high

    def finish(self, end):
        if not self.is_overdue(end):
            return
        since = self.judge.bus.waits_since(self.key, self.last + self.period)
        if since > self.last + self.high and not self.judge.strays.stands_for(self, self.last, end):
            self.tell_over(end)

    def tell_over(self, end):
        more = " any more" if self.was_seen else ""
        self.tell("pdo-event", f"it doesn't come{more}, for {milliseconds(end - self.last)}, and its event time is "
                  f"{milliseconds(self.period)}", *self.judge.spot(self.last + self.high))


class Shared:
    """TPDOs with one identifier: whose frame it is, isn't known, and its length may be that of any of them."""

    def __init__(self, pdos):
        self.pdos, self.lengths = pdos, {pdo.digits for pdo in pdos}

    def take(self, time, data, number):
        if len(data) not in self.lengths:
            self.pdos[0].changed(data, time, number)
