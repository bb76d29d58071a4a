"""What a log shows that isn't as planned: each cause once, with how often it was there, first and last."""
from collections import namedtuple

from .aligned import Alignment

MOST = 10_000
MOST_WAITING = 1_000
MOST_SPOTS = 200
MOST_NAMES, MOST_SIGNS = 4, 2
HEARTBEATS, VALUE = ("heartbeat-late", "heartbeat-missed"), "pdo-limit"

# Where in a log something is: its microsecond and its line.
Spot = namedtuple("Spot", "time line")


class Cause:
    """A cause.

    code     what kind of thing is wrong
    subject  the words that say which it is
    about    the part of the project that it is about, as `("node", 5)`
    who      that part in words
    text     what is wrong, as it was the first time
    first    where it was first; `last` where last; `count` how often
    notes    further lines of the log, each with words
    spots    the first of the places where it was
    is_first whether it stands before all others, which may follow from it
    """

    def __init__(self, code, subject, about, who, text, spot, notes):
        self.code, self.subject, self.about, self.who, self.text = code, subject, about, who, text
        self.first = self.last = spot
        self.count, self.notes, self.spots, self.is_first = 1, notes, [spot], False

    @property
    def key(self):
        return (self.code, *self.subject)


class Causes:
    """The causes of a log.

    planned    the times of the causes that the planned run itself has, by key: what it has isn't told; `waits` those
               of the frames that have to wait in it, and `values` what is said of its values beyond a limit
    tolerance  how far times may be off
    """

    def __init__(self, plan, times, tolerance):
        self.plan, self.planned, self.waits, self.values, self.tolerance = plan, times.of, times.waits, times.values, tolerance
        self.alignment = Alignment(plan.landmarks, tolerance)
        self.found, self.waiting, self.too_many, self.folds = {}, [], 0, []

    def tell(self, code, subject, about, text, time, line, notes=()):
        """Something isn't as planned."""
        cause = Cause(code, tuple(map(str, subject)), about, self.plan.who(about), text, Spot(time, line), tuple(notes))
        if cause.key not in self.planned:
            self._add(cause)
        elif (cause.key, text) in self.values:
            return
        elif self.alignment.is_known():
            self._judge(cause)
        elif len(self.waiting) < MOST_WAITING:
            self.waiting.append(cause)

    def tell_absent(self, code, subject, about, text, spot, notes=(), is_first=False):
        """Something never came, and needn't have been there in the planned run either to be reported."""
        cause = Cause(code, tuple(map(str, subject)), about, self.plan.who(about), text, spot, tuple(notes))
        cause.is_first = is_first
        self._add(cause)

    def fold(self, key, follows):
        """What follows from the cause of a key isn't reported by itself: it is named there."""
        self.folds.append((key, follows))

    def _judge(self, cause):
        if not self.alignment.has(self.planned[cause.key], cause.first.time):
            self._add(cause)

    def _add(self, cause):
        known = self.found.get(cause.key)
        if known:
            known.count, known.last = known.count + 1, max(known.last, cause.first)
            known.spots += [cause.first] if len(known.spots) < MOST_SPOTS else []
            if cause.first < known.first:
                known.first, known.text, known.notes = cause.first, cause.text, cause.notes
        elif len(self.found) < MOST:
            self.found[cause.key] = cause
        else:
            self.too_many += 1

    def jump(self):
        """Nothing was recorded for a while: times may have jumped."""
        self.alignment.may_jump = True

    def add_wait(self, key, time, gap):
        """A frame of a key had to wait for the bus, so that it came so long after the one before it."""

    def has_wait(self, key, time, gap):
        """Whether a frame of a key has to wait likewise in the planned run: then it isn't late, though the bus be less full here."""
        times = [at for at, most in self.waits.get(key, ()) if gap <= most + 2 * self.tolerance.jitter]
        return bool(times) and self.alignment.has(times, time)

    def landmark(self, key, data, time, since, power_on=None):
        """A boot-up message or a command, by which the log lies on the planned run; see Alignment.take."""
        if self.alignment.take(key, data, time, since, power_on):
            waiting, self.waiting = self.waiting, []
            for cause in waiting:
                self._judge(cause)

    def all(self):
        """All causes by their lines."""
        for cause in self.waiting if self.alignment.is_lost() else ():
            self._add(cause)
        self.waiting = []
        for key, follows in self.folds:
            self._fold(self.found.get(key), follows)
        self.folds = []
        return sorted(self.found.values(), key=lambda cause: (not cause.is_first, cause.first.line, cause.key))

    def _fold(self, root, follows):
        """Takes away what follows from a cause, and has it say so."""
        mine = [cause for cause in self.found.values() if root and cause is not root and follows(cause, root)]
        for cause in mine:
            del self.found[cause.key]
        if mine:
            first = min(mine, key=lambda cause: cause.first)
            names = ", ".join(sorted({" ".join(cause.key) for cause in mine})[:MOST_NAMES])
            more = f" and {len(mine) - MOST_NAMES} more" if len(mine) > MOST_NAMES else ""
            root.notes = root.notes[:MOST_SIGNS] + ((first.first.line, f"from here on this brings about {names}{more}"),)


class Times:
    """Stands for the causes where the planned run itself is judged.

    of     the times of each cause, by key
    waits  the times and gaps of the frames that have to wait for the bus, by key
    values what is said of each value beyond a limit: a machine may have it at another time
    """

    alignment = None

    def __init__(self):
        self.of, self.waits, self.values, self.found = {}, {}, set(), {}

    def fold(self, key, follows):
        """Each is kept by itself."""

    def jump(self):
        """Its times don't."""

    def tell(self, code, subject, about, text, time, line, notes=()):
        """Something isn't as the rules have it; a heartbeat that is late is missed later."""
        for each in HEARTBEATS if code in HEARTBEATS else (code,):
            self.of.setdefault((each, *map(str, subject)), []).append(time)
        if code == VALUE:
            self.values.add(((code, *map(str, subject)), text))

    def add_wait(self, key, time, gap):
        """A frame of a key has to wait for the bus, so that it comes so long after the one before it."""
        self.waits.setdefault(key, []).append((time, gap))

    def has_wait(self, key, time, gap):
        """Nothing is planned before."""
        return False

    def landmark(self, key, data, time, since, power_on=None):
        """The planned run lies on itself."""
