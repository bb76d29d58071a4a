"""Frames with identifiers of PDOs that no TPDO of the plan has, which may be those of one that doesn't come."""

KEPT = 64
NODE = 0x7F


class Unplanned:
    """Frames with such an identifier; `recent` are the last ones: time and digits.

    claims  the TPDO whose frames they may be, and how that is said; None for none
    """

    def __init__(self, judge, identifier):
        self.judge, self.identifier = judge, identifier
        self.recent, self.count, self.claim = [], 0, None
        taker = judge.plan.taker(identifier)
        self.text = f"no TPDO of the plan has the identifier {identifier:03X}h" + (f"; {taker} would take it" if taker else "")

    def take(self, time, data, number):
        self.count += 1
        self.recent = self.recent[1 - KEPT:] + [(time, len(data))]
        self.judge.causes.tell("pdo-unplanned", [f"{self.identifier:03X}"], ("identifiers",), self.text, time, number)

    def fits(self, pdo, start, end):
        """Whether they may be those of a TPDO that stay away from a time to another."""
        return any(start <= time <= end and digits == pdo.digits for time, digits in self.recent)

    def distance(self, pdo):
        """How unlike the identifiers are: at best their lower seven bits are the same, those of the node."""
        return self.identifier & NODE != pdo.tpdo.identifier & NODE, abs(self.identifier - pdo.tpdo.identifier)

    def is_claimed(self, pdo, words):
        """They may be those of a TPDO."""
        if self.claim is None:
            self.claim = f"; {pdo.name}, {pdo.tpdo.identifier:03X}h, {words}"

    def finish(self):
        """What is reported of them names whose they may be."""
        cause = self.judge.causes.found.get(("pdo-unplanned", f"{self.identifier:03X}"))
        if cause and self.claim:
            cause.text += self.claim


class Strays:
    """All of them, by identifier."""

    def __init__(self, judge):
        self.judge, self.all = judge, {}

    def taker(self, identifier):
        """What takes the frames of an identifier."""
        return self.all.setdefault(identifier, Unplanned(self.judge, identifier)).take

    def stands_for(self, pdo, start, end):
        """Whether frames with an unplanned identifier may be those of a TPDO that stay away from a time to another."""
        start -= self.judge.plan.sync + 4 * self.judge.tolerance.jitter
        words = "stays away then: it may be its frame" if pdo.was_seen else "doesn't come: these may be its frames"
        fitting = [each for each in self.all.values() if each.fits(pdo, start, end)]
        if fitting:
            min(fitting, key=lambda each: (each.claim is not None, each.distance(pdo))).is_claimed(pdo, words)
        return bool(fitting)

    def finish(self):
        for each in self.all.values():
            each.finish()
