"""Follows TPDOs that SYNC sends: at which SYNC they come, and within which window behind it."""
from .pdo import EventPdo, Pdo
from .plan import milliseconds
from .tolerance import NEVER


class SyncedPdo(Pdo):
    """A TPDO that SYNC sends; `window` are the microseconds within which it has to come."""

    needs_sync = True

    def __init__(self, judge, node, tpdo):
        super().__init__(judge, node, tpdo)
        self.sync, self.window = judge.sync, judge.window or judge.plan.nodes[tpdo.node].window or NEVER

    def judge_window(self, time, number):
        """A frame that comes behind the window, unless it is of the SYNC that should have come by now."""
        late = time - self.sync.last
        if not self.sync.is_overdue(time) and late > self.window + self.judge.tolerance.of(self.window):
            self.tell("pdo-window", f"it comes {milliseconds(late)} after SYNC, and the window is {milliseconds(self.window)}",
                      time, number, [(self.sync.line, "the SYNC")])


class SyncPdo(SyncedPdo):
    """A TPDO of type 1 to 240.

    index  the number of the SYNC after which its last frame came, None where its count isn't known
    """

    def __init__(self, judge, node, tpdo):
        super().__init__(judge, node, tpdo)
        self.step, self.index, self.era = tpdo.kind, None, 0
        self.has_start = bool(tpdo.start) and judge.plan.nodes[tpdo.node].counts_syncs

    def take(self, time, data, number):
        """A frame of it came."""
        if data != self.data:
            if len(data) == self.digits and not self.limits:
                self.data = data
            else:
                self.changed(data, time, number)
        sync = self.sync
        if self.index is None or sync.index - self.index != self.step:
            self._look(time, number)
        else:
            self.index = sync.index
        if sync.last is not None and time - sync.last > self.window:
            self.judge_window(time, number)
        self.last, self.line = time, number

    def _look(self, time, number):
        """A frame that doesn't come with the SYNC with which it has to."""
        sync, before = self.sync, self.index
        self.index = sync.index if sync.last is not None else None
        if before is None:
            self.first(time, number)
            self.index = None if self._carried(time, number) else self.index
            return
        if self.era != sync.era:
            self.era = sync.era
            return
        passed = sync.index - before
        if passed < self.step:
            self._extra(passed, before, time, number)
        elif self._carried(time, number):
            self.index = before + passed // self.step * self.step
            self.judge.causes.add_wait(self.key, time, passed)
        elif not self.judge.causes.has_wait(self.key, time, passed):
            self._missing(before, passed, time, number)

    def _extra(self, passed, before, time, number):
        """A frame that no SYNC called for."""
        if self.sync.last is None or self.sync.extra or self.sync.is_overdue(time):
            return
        self.index = before if passed == 0 else self.index
        when = "a second time after the same SYNC" if passed == 0 else f"{self.step - passed} SYNC too early"
        self.tell("pdo-extra", f"it comes {when}; its type is {self.step}", time, number, [(self.line, "the one before")])

    def _carried(self, time, number):
        """Whether it has waited since before this SYNC."""
        if not self.sync.period or self.sync.last is None:
            return False
        since = self.judge.bus.waited_since(number, self.sync.last - self.sync.period)
        return since is not None and since <= self.sync.last - self.sync.period + 2 * self.judge.tolerance.jitter

    def _missing(self, before, passed, time, number):
        """It stayed away at a SYNC or more; a frame with another identifier may be what came."""
        first = self.sync.spot(before + self.step)
        count = passed // self.step - bool(passed % self.step == 0)
        if self.judge.strays.stands_for(self, first.time, time):
            return
        self.index = before
        if self.node.was_silent(self, time, number):
            self.index = self.sync.index
            return
        self.index = self.sync.index
        many = f", {count:,} times one after the other" if count > 1 else ""
        self.tell("pdo-missing", f"it doesn't come after SYNC{many}; its type is {self.step}", first.time, first.line,
                  [(number, "here it comes again")])

    def start(self, time, line):
        if not self.has_start:
            self.index, self.era = self.sync.index, self.sync.era

    def forget(self, time=0):
        self.last = self.index = None
        self.rested = time

    def is_absent(self):
        """Whether its count hasn't begun: nothing came, or nothing since that of SYNC was broken."""
        if self.index is None:
            return self.last is None
        return self.era != self.sync.era and (self.last is None or self.last < self.sync.broken_at)

    def broken_since(self):
        """From when it has to come anew because the count of SYNC was broken, 0 for never."""
        return self.sync.broken_at if self.index is not None else 0

    def due(self):
        return self.sync.spot(self.index + self.step).time

    def is_judged(self):
        return self.index is not None and self.sync.last is not None and self.era == self.sync.era

    def is_overdue(self, time):
        return self.is_judged() and self.sync.index - self.index > self.step

    def finish(self, end):
        if not self.is_overdue(end):
            return
        first = self.sync.spot(self.index + self.step)
        if self.judge.bus.waits_since(self.key, first.time) > first.time and not self.judge.strays.stands_for(self, first.time, end):
            self.tell_over(end)

    def tell_over(self, end):
        first, passed = self.sync.spot(self.index + self.step), self.sync.index - self.index
        more = " any more" if self.was_seen else ""
        self.tell("pdo-missing", f"it doesn't come after SYNC{more}, {passed // self.step:,} times; its type is {self.step}",
                  first.time, first.line)


class AcyclicPdo(SyncedPdo):
    """A TPDO of type 0: it comes after a SYNC, if it has changed."""

    def take(self, time, data, number):
        """A frame of it came."""
        if self.sync.last is not None and time - self.sync.last > self.window:
            self.judge_window(time, number)
        super().take(time, data, number)


def follower(judge, node, tpdo):
    """What follows a TPDO."""
    if tpdo.kind == 0:
        return AcyclicPdo(judge, node, tpdo)
    if tpdo.kind is not None and tpdo.kind <= 240:
        return SyncPdo(judge, node, tpdo)
    if tpdo.kind in (254, 255):
        return EventPdo(judge, node, tpdo)
    return Pdo(judge, node, tpdo)
