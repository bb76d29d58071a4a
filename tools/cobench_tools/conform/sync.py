"""Follows SYNC: its period and its counter, and the numbers by which synchronous TPDOs are counted."""
from collections import deque

from . import keys
from .causes import Spot
from .plan import milliseconds

ABOUT = ("manager",)
KEPT, LOOKED_AT = 2048, 8
FIRST = 1024


class Sync:
    """SYNC as it was recorded.

    index   how many came, those that were missed too
    era     how often the count was broken, so that TPDOs have to be counted anew
    last    the time of the last one; `line` its line
    extra   how many came too soon since the last one that counts
    broken  the number of the last one at which the count was broken
    recent  the number, time and line of the last ones, and `early` those of the first ones
    broken_at  when the count was broken last
    paused  from when on it isn't known when the next one comes, None where it is
    """

    key, rested, was_seen = keys.SYNC, 0, False

    def __init__(self, judge):
        self.judge, self.period, self.modulus = judge, judge.plan.sync, judge.plan.counter
        self.tolerate()
        self.index = self.era = self.extra = self.line = self.count = self.broken = 0
        self.last = self.other = self.counter = None
        self.shortest = self.longest = None
        self.recent, self.early, self.broken_at, self.paused = deque(maxlen=KEPT), [], 0, None

    def tolerate(self):
        """Works out what is allowed."""
        self.allowed = self.judge.tolerance.of(self.period) if self.period else 0
        self.low, self.high = self.period - self.allowed, self.period + self.allowed

    def take(self, time, data, number):
        """A SYNC came."""
        if self.last is None:
            self._first(time, data, number)
            return
        gap = time - self.last
        if self.low <= gap <= self.high:
            if gap < self.shortest:
                self.shortest = gap
            if gap > self.longest:
                self.longest = gap
            self.index += 1
            if data or self.modulus:
                self._count(data, 1, time, number)
        elif not self._deviates(gap, time, data, number):
            return
        self.last, self.line, self.extra, self.count = time, number, 0, self.count + 1
        self.recent.append((self.index, time, number))

    def _first(self, time, data, number):
        self.last, self.line, self.index, self.count = time, number, 1, 1
        self.shortest, self.longest = (self.period or 1 << 60), (self.period or 0)
        self.recent.append((1, time, number))
        self.counter = int(data, 16) if len(data) == 2 else None
        self.judge.first_sync(time, number)
        if not self.period:
            self._tell("sync-unplanned", "it isn't planned", time, number)
        elif bool(self.modulus) != bool(data):
            self._has_wrong_bytes(data, time, number)

    def _tell(self, code, text, time, line, notes=()):
        self.judge.causes.tell(code, ["080"], ABOUT, f"SYNC: {text}", time, line, notes)

    def _deviates(self, gap, time, data, number):
        """A SYNC at another time than the period says; whether it counts."""
        if not self.period:
            self._tell("sync-unplanned", "it isn't planned", time, number)
            self.index += 1
            return True
        if self.paused is not None and time - self.paused <= 2 * self.period:
            return self._resumes(data, time, number)
        if gap < self.low:
            return self._early(gap, time, data, number)
        self._late(gap, time, data, number)
        return True

    def comes_by_itself(self):
        """Whether it has a period."""
        return bool(self.period)

    def is_late(self, time):
        """Whether one should surely have come by now."""
        return self.last is not None and bool(self.period) and time - self.last > self.high

    def pause(self, time):
        """When the next one comes, a time on, isn't known."""
        self.paused = time

    def _resumes(self, data, time, number):
        """The first one of which that wasn't known."""
        self.paused, self.other, self.index = None, None, self.index + 1
        self._break()
        self._count(data, None, time, number)
        return True

    def _early(self, gap, time, data, number):
        repeats = bool(self.modulus) and len(data) == 2 and int(data, 16) == self.counter
        waited = not repeats and time - self._due_since() >= self.low
        resumed = self.other is not None and abs(time - self.other - self.period) <= self.allowed
        if waited or resumed:
            self.other = None
            self.index += 1
            self._count(data, 1, time, number)
            return True
        if 2 * gap < self.period:
            self._tell("sync-extra", f"one more comes {milliseconds(gap)} after the last one; the period is {milliseconds(self.period)}",
                       time, number)
            self.extra, self.other = self.extra + 1, time
            return False
        self._tell("sync-period", f"it comes {milliseconds(self.period - gap)} early, {milliseconds(gap)} after the last one", time, number)
        self.other, self.index = self.last, self.index + 1
        self._break()
        self._count(data, None, time, number)
        return True

    def _due_since(self):
        """Since when the last SYNC was due at the earliest: each of those before it was due some periods before."""
        bounds = []
        for index, _, line in list(self.recent)[-LOOKED_AT:]:
            since = self.judge.bus.waited_since(line) if index > self.broken or index == self.index else None
            if since is not None:
                bounds.append(since + (self.index - index) * self.period)
        return max(bounds, default=self.last)

    def _late(self, gap, time, data, number):
        """A SYNC that comes late: it had to wait, others are missing before it, or it is late."""
        since, step = self.judge.bus.waited_since(number, self.last + self.period), None
        if since is not None and since <= self.last + self.high:
            self.index += 1
        else:
            step = self._after_gap(gap, time, number)
        self._count(data, step, time, number)

    def _after_gap(self, gap, time, number):
        """Tells why a SYNC comes late; how many steps its counter has to have gone, None where that isn't known."""
        missed = max(round(gap / self.period) - 1, 0)
        periods = (missed + 1) * self.period
        resumed = self.other is not None and abs(time - self.other - self.period) <= self.allowed
        self.index += 1 + missed
        self._break()
        if resumed:
            self.other = None
            return None
        if missed and abs(gap - periods) <= self.judge.tolerance.of(periods):
            what = "one is missing" if missed == 1 else f"{missed:,} are missing"
            self._tell("sync-missing", f"{what}: it comes {milliseconds(gap)} after the last one; the period is "
                       f"{milliseconds(self.period)}", time, number)
            return missed + 1
        self._tell("sync-period", f"it comes {milliseconds(gap - self.period)} late, {milliseconds(gap)} after the last one", time, number)
        self.other = self.last + self.period
        return None

    def _break(self):
        """What was counted before says nothing of what comes."""
        self.broken_at = self.last
        self.era, self.broken = self.era + 1, self.index - 1

    def _count(self, data, step, time, number):
        """Judges the counter of a SYNC that comes so many steps after the last one, None where that isn't known."""
        if len(data) != (2 if self.modulus else 0):
            self._has_wrong_bytes(data, time, number)
            return
        if not self.modulus:
            return
        counter, before = int(data, 16), self.counter
        self.counter = counter
        if before is None or step is None:
            return
        expected = (before - 1 + step) % self.modulus + 1
        if counter != expected:
            self._tell("sync-counter", f"its counter is {counter} behind {before}; it counts from 1 to {self.modulus}", time, number)
            self.counter = expected if counter != before else counter

    def _has_wrong_bytes(self, data, time, number):
        planned = f"a counter from 1 to {self.modulus}" if self.modulus else "no counter"
        self._tell("sync-counter", f"it has {len(data) // 2} bytes, and {planned} is planned", time, number)
        self.counter = None

    def is_overdue(self, time):
        """Whether one should have come by now."""
        return self.last is not None and self.period and time > self.last + self.low

    def spot(self, index):
        """The time and line of the SYNC of a number, as far as they are kept."""
        if self.early and index < self.recent[0][0] and index <= self.early[-1][0]:
            return next(Spot(time, line) for each, time, line in reversed(self.early) if each <= index or each == 1)
        for each, time, line in reversed(self.recent):
            if each <= index:
                return Spot(time, line)
        return self.judge.spot(self.last - (self.index - index) * self.period)

    def keep(self):
        """Keeps the first ones; it is asked after each block."""
        if len(self.early) < FIRST:
            behind = self.early[-1][0] if self.early else 0
            self.early += [each for each in self.recent if each[0] > behind]

    def after(self, time, count):
        """The place of the one so many from a time on, None where there are no more behind that."""
        kept = self.early if self.early and self.early[-1][1] > time else list(self.recent)
        later = [each for each in kept if each[1] >= time][:count]
        if len(later) == count and later[-1][0] < self.index:
            return Spot(*later[-1][1:])
        if len(later) == count or (self.last - time) // self.period <= count:
            return None
        return self.judge.spot(time + count * self.period)

    def finish(self, end):
        """The log is over; whether it came at all is judged elsewhere."""
        if not self.period:
            return
        if self.last is not None and end > self.last + self.high + self.allowed + self.period // 2:
            if self.judge.bus.waits_since(self.key, self.last + self.period) > self.last + self.high:
                self._tell("sync-missing", f"none comes any more; the period is {milliseconds(self.period)}",
                           *self.judge.spot(self.last + self.high), [(self.line, "the last one")])
