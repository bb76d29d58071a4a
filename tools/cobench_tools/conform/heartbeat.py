"""Follows the heartbeats of a node: whether they are in time for 1017h and for those who watch it, and which state they tell."""
from .. import meaning
from . import keys
from .causes import HEARTBEATS
from .plan import milliseconds
from .tolerance import NEVER

LOWER, QUICK = 2, 16
LATE, MISSED = HEARTBEATS
STATE = 0x7F       # above it node guarding has its toggle bit
STATE_BYTES = {4: "04", 5: "05", 127: "7F"}


def state_name(state):
    return meaning.STATES.get(state, f"state {state}")


class Heartbeat:
    """The heartbeats of a node.

    period    the microseconds from one to the next, 0 for none, None where it isn't known
    at_first  those that they may be as well, as long as the node may not be configured yet; 0 for none
    last      the time of the last one, or of what it counts from, None before; `line` its line
    is_beat   whether that was a heartbeat, and not what it counts from; `before` is the time of the one before it
    was_seen  whether one came at all; `rested` is when it was to begin anew
    expected  the digits of the state that it has to tell, "" where that isn't known
    """

    def __init__(self, judge, node, period):
        self.judge, self.node, self.key = judge, node, keys.heartbeat(node.number)
        self.last, self.line, self.expected, self.high, self.at_first = None, 0, "", NEVER, 0
        self.is_beat, self.before, self.low, self.was_seen, self.rested = False, None, 0, False, 0
        self.spare = 2 * judge.plan.duration(16)
        self.watched = judge.plan.consumers.get(node.number, [])
        self.set_period(period)

    def set_period(self, period):
        """Takes the period by which they come from now on."""
        self.period = period
        longest, shortest = max(period, self.at_first), min(period, self.at_first or period)
        self.high = longest + self.judge.tolerance.of(longest) if period else NEVER
        self.low = shortest // 2

    def tolerate(self):
        """Works out what is allowed."""
        self.set_period(self.period)

    def may_be(self, at_first):
        """The period may be this one as well, 0 for no other."""
        if self.at_first != at_first:
            self.at_first = at_first
            self.set_period(self.period)

    def begin(self, period, time, line):
        """The period is known, and begins now."""
        self.at_first = 0
        self.set_period(period)
        self.last, self.line, self.is_beat, self.before = time, line, False, None

    def take(self, time, data, number):
        """A heartbeat or a boot-up message came."""
        if data == self.expected and self.last is not None and self.low < time - self.last <= self.high:
            self.before, self.last, self.line, self.is_beat = self.last, time, number, True
        else:
            self._look(time, data, number)

    def _look(self, time, data, number):
        if data == keys.BOOT_UP:
            self.node.boot_up(time, number)
            return
        if self.last is not None and time - self.last > self.high:
            self._late(time, number)
        elif self.last is not None and time - self.last <= self.low:
            self._early(time, number)
        self.before, self.last, self.line, self.is_beat, self.was_seen = self.last, time, number, True, True
        self.node.hear(time, number)
        if len(data) == 2:
            self.node.tells_state(int(data, 16) & STATE, time, number)
        else:
            self.node.tell("state", [self.node.number], f"its heartbeat has {len(data) // 2} bytes", time, number)

    def _early(self, time, number):
        """Two in half a period: one device sends none so soon, unless the first one had to wait, its state changed, or all come so soon."""
        is_quick = self.before is not None and time - self.before < self.period - self.period // QUICK
        if not self.is_beat or is_quick or self.node.has_changed(self.last):
            return
        due = self.last - self.low
        since = self.judge.bus.waited_since(self.line, due, self.spare, LOWER)
        if since is None or since > due:
            self.node.is_doubled(f"its heartbeat comes {milliseconds(time - self.last)} after the last one, and 1017h has "
                                 f"{milliseconds(self.period)}", time, number)

    def _late(self, time, number):
        """One that is late: because the bus was busy, or because it is."""
        due = self.last + self.high
        since = self.judge.bus.waited_since(number, self.last + self.period, self.spare, LOWER)
        gap, waits = time - self.last, self.judge.causes
        if since is not None and since <= due:
            waits.add_wait(self.key, time, gap)
            return
        if waits.has_wait(self.key, time, gap) or self.node.was_silent(self, time, number):
            return
        self._tell(gap, time, number)

    def _tell(self, gap, time, number, is_over=False):
        """Tells of a heartbeat that is so long in coming, and who misses it."""
        code, who = self.who_misses(gap)
        came = f"no heartbeat came for {milliseconds(gap)}, to the end"
        if not is_over:
            came = f"its heartbeat comes {milliseconds(gap)} after the last one"
        text = f"{came}; 1017h has {milliseconds(self.period)}{who}"
        self.node.tell(code, [self.node.number], text, time, number,
                       [(self.line, "the last one before" if self.is_beat else "its time counts from here")])

    def who_misses(self, gap):
        """The code of a heartbeat that is so long in coming, and in words who misses it, or would have been the first."""
        name, allowed = self.judge.plan.name, self.judge.tolerance.of
        missing = [(limit, node) for limit, node in self.watched if gap > limit + allowed(limit)]
        if missing:
            names, limit = [name(node) for _, node in missing[:3]], missing[0][0]
            return MISSED, f", and {' and '.join(names)} miss{'es' if len(names) == 1 else ''} it after {milliseconds(limit)}"
        if self.watched:
            limit, node = self.watched[0]
            return LATE, f"; {name(node)} misses it after {milliseconds(limit)}: {milliseconds(max(limit - gap, 0))} were left"
        return LATE, ""

    def comes_by_itself(self):
        """Whether it has a period."""
        return self.high < NEVER

    def is_overdue(self, time):
        """Whether one should have come by now."""
        return self.last is not None and time - self.last > self.high

    is_late = is_overdue

    def due(self):
        """When the next one has to come."""
        return self.last + self.period

    def is_judged(self):
        """Whether it says when it is to come."""
        return self.last is not None and self.high < NEVER

    def forget(self, time=0):
        """What comes next is the first one; it has to come from a time on."""
        self.last, self.before, self.is_beat, self.rested = None, None, False, time

    def finish(self, end):
        """The log is over."""
        if self.is_overdue(end):
            since = self.judge.bus.waits_since(self.key, self.last + self.period, self.spare, LOWER)
            if since > self.last + self.high:
                self.tell_over(end)

    def tell_over(self, end):
        """None came up to the end."""
        self._tell(end - self.last, *self.judge.spot(self.last + self.high), is_over=True)
