"""What is wrong with the load of a bus: what may be late, what has no bound, and where trace and analysis differ."""
from . import tool, traffic
from .findings import WARNING, Finding, milliseconds
from .traffic import time_text

LATE, UNBOUNDED, OVERLOAD, ASSUMED, TRACE = "late", "unbounded", "overload", "assumed", "trace"


class LoadFindings:
    """Makes the findings of a load, each at the line of the command that made the part that it is about."""

    def __init__(self, load, origins, path):
        self.load, self.origins, self.path = load, origins, path

    def finding(self, code, each, text, severity=None):
        command = self.origins.command(*each.part)
        place = command.place if command else tool.Place(self.path, 1)
        finding = Finding(place, f"{code} {each.name}", " ".join(map(str, each.part)), each.name, text)
        finding.severity = severity or finding.severity
        return finding

    def all(self):
        load = self.load
        found = [self.finding(UNBOUNDED, each, self.unbounded(each), WARNING) for each in load.unbounded]
        found += [self.finding(ASSUMED, each, assumed(each), WARNING) for each in load.traffic if each.has_event_time_alone()]
        too_much = [each for each in load.traffic if load.stuffed.of[each].is_overload()]
        found += [self.finding(OVERLOAD, each, self.overload(each)) for each in too_much[:1]]
        found += [self.finding(LATE, each, self.late(each)) for each in load.traffic if load.is_late(each)]
        return found + [self.finding(TRACE, each, text) for each in load.traffic for text in self.beyond_bound(each)]

    def unbounded(self, each):
        """That nothing bounds how often a frame comes, and what would."""
        load, inhibit = self.load, self.load.least_inhibit
        enough = f": {inhibit} ({time_text(100 * inhibit)}) is the least with which all is in time" if inhibit else ""
        taken = f"; it is taken to come at most each {time_text(load.assumed)}" if load.assumed else ""
        return traffic.why_no_bound(load.network, each) + enough + taken

    def overload(self, each):
        """That the frames up to this one ask for more than the bus can carry."""
        before = [other for other in self.load.traffic if other.priority <= each.priority]
        share = sum(self.load.stuffed.share(other) or 0 for other in before)
        return f"with what goes before it the bus has {share:.1f} % to carry, so that nothing bounds how long it waits"

    def late(self, each):
        """That a frame may come too late, and what it waits for."""
        response, (deadline, what) = self.load.stuffed.of[each], self.load.deadline(each)
        since = " after SYNC" if each.is_of_sync() else ""
        return (f"at worst {milliseconds(response.wait)}{since}, and {what} is {milliseconds(deadline)}: "
                f"{' and '.join(causes_of(response, self.alarms(each))) or 'itself'}")

    def alarms(self, each):
        """How many emergencies go before a frame."""
        alarms = [other for other in self.load.traffic if other.is_once and other.part[0] == "node"]
        return sum(other.priority < each.priority for other in alarms)

    def beyond_bound(self, each):
        """That the trace has a longer wait than the analysis allows, or more frames than it counts."""
        seen, bound = self.load.seen[each], self.load.traced.of[each].wait
        if bound is None or seen.longest is None:
            return []
        if self.is_sooner(each):
            return [f"it comes after {milliseconds(seen.least)} in the trace, and is counted as coming {each.comes}: "
                    "the bounds of this and of all lower frames don't hold"]
        if seen.longest > bound and not any(map(self.is_sooner, self.load.traffic)):
            return [f"it waits {milliseconds(seen.longest)} in the trace, until {milliseconds(seen.moment)}, and by the "
                    f"analysis at most {milliseconds(bound)}: one of the two is wrong"]
        return []

    def is_sooner(self, each):
        """Whether frames come sooner in the trace than they are counted to, where the device doesn't prevent that."""
        least, bound = self.load.seen[each].least, self.load.traced.of[each].wait
        if None in (least, bound, each.period) or not (each.has_event_time_alone() or each.is_assumed):
            return False
        return least < each.period - (bound - each.least_bits * self.load.bit)


def assumed(each):
    return f"it has an event time but no inhibit time: it is taken to come {each.comes}"


def causes_of(response, alarms):
    """What a frame waits for at worst, so many emergencies among it."""
    count, time = response.frames_before()
    these = f", {alarms} of them emergencies," if alarms > 1 else ", one of them an emergency," if alarms else ""
    frames = "1 frame" if count == 1 else f"{count} frames"
    causes = [f"{frames} of higher priority{these} in {milliseconds(time)}"] if count else []
    causes += [f"{response.earlier} of its own before it"] if response.earlier else []
    if response.blocking:
        causes.append(f"one of lower priority that had started, in {milliseconds(response.blocking)}")
    return causes
