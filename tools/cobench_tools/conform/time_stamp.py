"""Follows TIME, the time stamp: whether it comes at least each two of its periods, and with six bytes. What it says isn't judged."""
from . import keys
from .plan import milliseconds
from .tolerance import NEVER

ABOUT = ("time-period",)
PERIODS = 2       # after which it comes at the latest
DIGITS = 12


class TimeStamp:
    """TIME as it was recorded; `last` is the time of the last one, `line` its line, `rested` when it was to begin anew."""

    key = keys.TIME

    def __init__(self, judge):
        self.judge, (self.period, _) = judge, judge.plan.project.time or (0, 0)
        self.last, self.line, self.rested, self.was_seen = None, 0, 0, False
        self.tolerate()

    def tolerate(self):
        """Works out what is allowed."""
        longest = PERIODS * self.period
        self.high = longest + self.judge.tolerance.of(longest) if self.period else NEVER

    def take(self, time, data, number):
        """A time stamp came, of a network with one."""
        if len(data) != DIGITS:
            self._tell("time-bytes", f"it has {len(data) // 2} bytes, not 6", time, number)
        if self.last is not None and time - self.last > self.high:
            self._late(time, number)
        self.last, self.line, self.was_seen = time, number, True

    def _late(self, time, number):
        """One that is late: because the bus was busy, or because others are missing before it."""
        since = self.judge.bus.waited_since(number, self.last + self.period)
        if since is None or since > self.last + self.high:
            self._tell("time-missing", f"it comes {milliseconds(time - self.last)} after the last one; the period is "
                       f"{milliseconds(self.period)}", time, number, [(self.line, "the last one")])

    def _tell(self, code, text, time, line, notes=()):
        self.judge.causes.tell(code, ["100"], ABOUT, f"TIME: {text}", time, line, notes)

    def forget(self, time):
        """What comes next is the first one; it has to come from a time on."""
        self.last, self.rested = None, time

    def comes_by_itself(self):
        """Whether it has a period."""
        return bool(self.period)

    def finish(self, end):
        """The log is over; whether it came at all is judged elsewhere."""
        if self.last is not None and end > self.last + self.high:
            if self.judge.bus.waits_since(self.key, self.last + self.period) > self.last + self.high:
                self._tell("time-missing", f"none comes any more; the period is {milliseconds(self.period)}",
                           *self.judge.spot(self.last + self.high), [(self.line, "the last one")])
