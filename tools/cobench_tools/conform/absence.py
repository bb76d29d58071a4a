"""What is planned to come by itself, and how long it may take at the longest.

| Thing | Comes at the latest | Has to come from |
|---|---|---|
| heartbeat of a node | after one and a half of its periods | the end of the start, or what made it begin anew |
| heartbeat of the manager | after one and a half of its periods | the same |
| SYNC | after two periods | the end of the start |
| TIME | after two periods | the end of the start |
| PDO of type n | at the n-th SYNC | the start command, the first heartbeat 05h, or the end of the start |
| PDO with an event time | after its event time | the same |
| boot-up message, where the log has the start | by the end of the start | power-on |

What came and stays away after that is reported by its own follower; here is what never came.
"""
from ..logs.terminal import NO_TIMES
from .plan import milliseconds
from .presence import LEAST_SILENT
from .rests import Rests
from .startup import CALM
from .sync import ABOUT

PERIODS_OF_SYNC = 2


class Awaited:
    """Something that is planned to come by itself.

    key, name  the key of its frames, and what it is in words
    node       the follower of the node that sends it
    stream     its own follower
    longest    the microseconds after which it comes at the latest
    """

    def __init__(self, judge, node, stream, name, longest):
        self.judge, self.node, self.stream, self.name, self.longest = judge, node, stream, name, longest

    def is_absent(self):
        """Whether nothing of it came since it was to begin."""
        return self.stream.last is None

    def since(self):
        """From when it has to come, after how long at the soonest; where that isn't known, None and why."""
        since, after, why = self.judge.whole_since()
        return (since, after, why) if since is None else (max(since, self.stream.rested), after, why)

    def rests(self, longest):
        """When it stays away in the planned run."""
        return Rests(self.judge.plan.times(self.stream.key), *self.judge.plan.span, longest)

    def where(self):
        """Where it should have been seen first, None where it needn't have been; and why."""
        judge, (since, after, why) = self.judge, self.since()
        if since is None:
            return None, why
        longest = max(self.longest, after)
        due = self.rests(longest).overdue(since, judge.end, judge.causes.alignment)
        if due is None:
            return None, "the planned run has it stay away too"
        if due > judge.end:
            return None, f"the log has {milliseconds(max(judge.end - due + longest, 0))}, and it takes {milliseconds(longest)}"
        if judge.bus.waits_since(self.stream.key, due) <= due:
            return None, "the bus was too full"
        return self.spot(due, longest)

    def spot(self, due, longest):
        """The place where it is overdue."""
        return self.judge.spot(due), ""

    def away(self, spot):
        """How long it stayed away, in words."""
        return milliseconds(self.judge.end - spot.time + self.longest)


class AwaitedHeartbeat(Awaited):
    """The heartbeats of a node or of the manager."""

    def __init__(self, judge, node, period):
        self.period = period
        super().__init__(judge, node, node.heartbeat, f"heartbeat of {judge.plan.name(node.number)}",
                         period + period // 2 + judge.tolerance.of(period))

    def is_absent(self):
        return self.stream.last is None or not self.stream.was_seen and not self.stream.comes_by_itself()

    def since(self):
        if self.node.is_booting():
            return None, 0, "the boot that has it sent isn't over"
        return super().since()

    def planned(self):
        """What is planned of it, in words."""
        return f"its heartbeat is planned each {milliseconds(self.period)}"

    def tell(self, spot):
        code, who = self.stream.who_misses(self.judge.end - spot.time + self.longest)
        text = f"no heartbeat came for {self.away(spot)}, to the end; 1017h has {milliseconds(self.period)}{who}"
        self.judge.causes.tell_absent(code, [self.node.number], self.node.about, text, spot)


class AwaitedSync(Awaited):
    """SYNC."""

    def __init__(self, judge):
        super().__init__(judge, judge.manager, judge.sync, "SYNC", PERIODS_OF_SYNC * judge.sync.period + judge.sync.allowed)

    def since(self):
        since, after, why = super().since()
        return since, after if self.judge.startup.is_seen else max(after, CALM), why

    def tell(self, spot):
        coming = [pdo.first_line for node in self.judge.nodes.values() for pdo in node.pdos.values()
                  if pdo.needs_sync and pdo.first_line is not None]
        notes = [(min(coming), "a PDO that SYNC sends comes all the same")] if coming else []
        self.judge.causes.tell_absent("sync-missing", ["080"], ABOUT,
                                      f"SYNC: there is none; the period is {milliseconds(self.stream.period)}", spot, notes, is_first=True)


class AwaitedTime(Awaited):
    """TIME."""

    def __init__(self, judge):
        super().__init__(judge, judge.manager, judge.time_stamp, "TIME", judge.time_stamp.high)

    def tell(self, spot):
        self.judge.causes.tell_absent("time-missing", ["100"], ("time-period",),
                                      f"TIME: there is none; the period is {milliseconds(self.stream.period)}", spot)


class AwaitedPdo(Awaited):
    """A PDO that comes by itself once its node is operational, here by its event time."""

    def __init__(self, judge, pdo, longest=None):
        super().__init__(judge, pdo.node, pdo, f"{pdo.tpdo.identifier:03X}h {pdo.name}", longest or pdo.high)

    def since(self):
        since, after, why = self.node.awaits_pdos()
        return (since, after, why) if since is None else (max(since, self.stream.rested), after, why)

    def planned(self):
        return f"{self.name} is planned at least each {milliseconds(self.stream.period)}"

    def tell(self, spot):
        self.stream.tell_absent("pdo-event", f"it doesn't come, for {self.away(spot)}, and its event time is "
                                f"{milliseconds(self.stream.period)}", spot)


class AwaitedSyncPdo(AwaitedPdo):
    """The same of type 1 to 240; with a SYNC start value, once the counter of SYNC has that."""

    def __init__(self, judge, pdo):
        self.steps = pdo.step + (judge.plan.counter if pdo.has_start else 0)
        super().__init__(judge, pdo, (self.steps + 1) * judge.sync.period)

    def is_absent(self):
        return self.stream.is_absent()

    def since(self):
        if self.judge.sync.last is None:
            return None, 0, "there is no SYNC"
        since, after, why = super().since()
        return since if since is None else max(since, self.stream.broken_since()), after, why

    def spot(self, due, longest):
        """The SYNC behind which it should have come at the latest."""
        found = self.judge.sync.after(due - longest, self.steps)
        return (found, "") if found else (None, "too few SYNC came")

    def planned(self):
        return f"{self.name} is planned at SYNC, of type {self.stream.step}"

    def tell(self, spot):
        many = max(round((self.judge.sync.last - spot.time) / self.judge.sync.period), 1) // self.stream.step
        self.stream.tell_absent("pdo-missing", f"it doesn't come after SYNC, {max(many, 1):,} times; its type is {self.stream.step}", spot)


class AwaitedBoot(Awaited):
    """The boot-up message of a node of which nothing came, where the log has the start of the machine."""

    def __init__(self, judge, node):
        super().__init__(judge, node, node.heartbeat, "boot-up message", 0)

    def planned(self):
        return "it had to boot by here"

    def since(self):
        is_due = self.judge.has_all_boots() and not self._is_planned_before() or self.node.reset_at
        return super().since() if is_due else (None, 0, "nothing of it comes by itself")

    def _is_planned_before(self):
        """Whether it boots ahead of the first one that boots in the log: it may have done so before that begins."""
        anchor, times = self.judge.startup.anchor, self.judge.plan.times(self.stream.key)
        return bool(anchor and times) and times[0] < anchor[1]

    def rests(self, longest):
        """Before its first one; where it never boots in the planned run, all the time."""
        begin, end = self.judge.plan.span
        first = self.judge.plan.times(self.stream.key)[:1]
        return Rests(first, begin, first[0] if first else end, longest)


class Absences:
    """All of that in a log.

    left  what wasn't judged, and why: the words of each
    """

    def __init__(self, judge):
        self.judge, self.left = judge, []

    def finish(self):
        """Reports what never came."""
        judge = self.judge
        if judge.tolerance.coarse >= NO_TIMES:
            self.left.append(("whatever comes by itself", "the log has no times"))
            return
        if judge.sync.period and judge.sync.last is None:
            self._judge(AwaitedSync(judge))
        self._judge_all([AwaitedTime(judge)] if judge.time_stamp.comes_by_itself() else [])
        if judge.plan.manager_heartbeat and not judge.controller:
            self._judge_all([AwaitedHeartbeat(judge, judge.manager, judge.plan.manager_heartbeat)])
        for node in judge.nodes.values():
            awaited = self.awaited_of(node)
            if node.first is None:
                self._never_seen(node, awaited)
            elif not self._is_silent(node, awaited):
                self._judge_all(awaited)

    def awaited_of(self, node):
        """What comes of a node by itself."""
        beats = [AwaitedHeartbeat(self.judge, node, node.planned.heartbeat)] if node.planned.heartbeat else []
        synced = [AwaitedSyncPdo(self.judge, pdo) for pdo in node.pdos.values() if pdo.step and self.judge.sync.period]
        return beats + synced + [AwaitedPdo(self.judge, pdo) for pdo in node.pdos.values() if pdo.comes_by_itself()]

    def _is_silent(self, node, awaited):
        """Whether nothing of a node comes any more since all of it was to begin anew: one finding."""
        spots = [each.where()[0] for each in awaited if each.is_absent()]
        if len(awaited) < LEAST_SILENT or len(spots) < len(awaited) or None in spots or node.last_heard().time >= min(spots).time:
            return False
        spot = min(spots)
        node.tell("silent", [node.number], "nothing of it comes any more", *spot)
        return True

    def _judge_all(self, awaited):
        for each in awaited:
            if each.is_absent():
                self._judge(each)

    def _judge(self, awaited):
        spot, why = awaited.where()
        if spot:
            awaited.tell(spot)
        elif not awaited.stream.was_seen:
            self.left.append((awaited.name, why))

    def _never_seen(self, node, awaited):
        """Reports a node of which nothing came: where the first of what is awaited of it should have been seen, or its boot-up message."""
        found = [(each.where(), each) for each in awaited + [AwaitedBoot(self.judge, node)]]
        spots = [(spot, each) for (spot, _), each in found if spot]
        if not spots:
            self.left.append((self.judge.plan.name(node.number), found[0][0][1]))
            return
        spot, first = min(spots, key=lambda each: each[0])
        text = f"nothing of it comes in all of the log, {milliseconds(self.judge.end - self.judge.begin)}; {first.planned()}"
        self.judge.causes.tell_absent("never-seen", [node.number], node.about, text, spot, self._notes(node))

    def _notes(self, node):
        """Who else may be the node: one that nobody planned, where that is the only one."""
        strangers = [cause for cause in self.judge.causes.found.values() if cause.code == "unplanned-node"]
        away = [each for each in self.judge.nodes.values() if each.first is None]
        if len(strangers) == len(away) == 1:
            return [(strangers[0].first.line, f"{strangers[0].who}, which isn't planned, is heard: it may be this one")]
        return []
