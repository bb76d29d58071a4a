"""When a machine is up, as far as a log shows it: from then on all that is planned has to be there."""
import bisect
from array import array

from . import keys
from .causes import Spot

RESETS_OF_ALL = "8100", "8200"

# Nodes that come so much later than in the planned run have a pace of their own. The start is over when nothing of it came
# for a while: BRIEF where at most one node isn't there and none is slow, else LONG, and no less than the start took before.
PACE, BRIEF, LONG, CALM = 5_000, 100_000, 1_000_000, 200_000
MOST = 10_000_000


class Startup:
    """The start of a machine: its nodes boot and are configured.

    begin    the time of the first frame
    last     when a node booted or was configured last before the start was over, `begin` where none was
    is_seen  whether any node booted or was configured
    known    the boot-up messages and commands that came, of those that are planned; `anchor` has when the first one came, and
             when it does so in the planned run
    nth      by which of its planned times each is judged: the first one, or the last one where the log begins with a command
    is_slow  whether one of them came later than in the planned run
    is_reordered  whether nodes boot in another order than in the planned run; `booted` is when the last one does so there
    latest   when a node booted or was configured last of all
    ends     when the start was over, by how long nothing of it came, BRIEF or LONG; none where it isn't over
    """

    def __init__(self, plan):
        self.landmarks, self.begin, self.last, self.anchor, self.nth = plan.landmarks, None, None, None, 0
        self.is_seen, self.is_slow, self.ends, self.known, self.latest = False, False, {}, set(), 0
        self.is_reordered, self.booted = False, 0

    def go_on(self, time):
        """Up to a time nothing of a start came but what was said before."""
        if self.begin is None:
            self.begin = self.last = time
        for rest in (BRIEF, LONG):
            if rest not in self.ends and time - self.last > self._rest(rest):
                self.ends[rest] = self.last

    def _rest(self, rest):
        """How long nothing of the start has to come for it to be over."""
        return rest if rest == BRIEF else min(max(rest, self.last - self.begin), MOST)

    def activity(self, time):
        """A node booted, or was configured."""
        self.latest = time
        if LONG not in self.ends:
            self.go_on(time)
            self.is_seen, self.last = True, time if time - self.begin < MOST else self.last

    def landmark(self, key, data, time):
        """A boot-up message or a command came: it may be later than planned."""
        planned = self.landmarks.get((key, data))
        if not planned or (key, data) in self.known:
            self.is_slow |= data in RESETS_OF_ALL and not self.is_seen
            return
        self.known.add((key, data))
        if key != keys.COMMAND:
            self.is_reordered |= planned[0] < self.booted
            self.booted = planned[0]
        if self.anchor is None:
            self.anchor, self.nth = (time, planned[0]), (-1 if key == keys.COMMAND else 0)
        elapsed = planned[self.nth] - self.anchor[1]
        self.is_slow |= time - self.anchor[0] > elapsed + PACE + max(elapsed, 0) // 4

    def since(self, missing, is_quiet):
        """From when all has to be there, and after how long at the soonest, where so many nodes aren't there, or all aren't.

        The first is None where the start isn't over at the end of the log.
        """
        if not self.is_seen:
            return self.begin, LONG if is_quiet else 0
        rest = LONG if self.is_slow or missing > 1 else BRIEF
        return self.ends.get(rest), self._rest(rest)


class Places:
    """The first frame from a time on: exactly in the first and the last blocks of a log, else the first of some blocks there."""

    KEPT, MOST = 100, 20_000

    def __init__(self):
        self.first, self.starts, self.count, self.every = [], [], 0, 1

    def take(self, block):
        """The next block."""
        if self.count % self.every == 0:
            self.starts.append((block.rows[0][0], block.numbers[0]))
        if len(self.starts) > self.MOST:
            self.starts, self.every = self.starts[::2], 2 * self.every
        self.count += 1
        if len(self.first) < self.KEPT:
            self.first.append((array("q", block.times), block.numbers))

    def spot(self, time, last):
        """The time itself, and the line of the first frame from it on; `last` are the last blocks of the log."""
        for times, numbers in self.first:
            if times[-1] >= time:
                return Spot(time, numbers[bisect.bisect_left(times, time)])
        for block in last:
            if block.rows[-1][0] >= time >= block.rows[0][0]:
                return Spot(time, block.numbers[bisect.bisect_left(block.rows, (time,))])
        return Spot(time, self.starts[max(bisect.bisect_right(self.starts, (time, 1 << 62)) - 1, 0)][1])
