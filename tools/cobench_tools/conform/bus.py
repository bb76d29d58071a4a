"""The frames of a log as they were on the wire: since when one can have waited."""
import bisect

from ..logs.rows import ERROR, FLEXIBLE, OTHER
from ..logs.intake import Block
from ..traffic import plain_bits
from .load import Load

# Frames are measured in the first blocks, and in some of the others; stuff bits make them longer by up to a fifth, and
# by a sixteenth on the average.
ALL_UP_TO, EACH = 20, 32
STUFFED, SHARE = 5, 16
SEEN, BITS = 4, 8
ALWAYS = -1 << 62

# A frame of 29 bits has as many bits more as so many digits of data have.
BITS_OF_A_DIGIT, MOST_DIGITS, LONGER = 4, 16, 5


class Bus:
    """The last frames of a log, those among them that aren't of the network.

    blocks  the last two blocks, the newest last
    """

    def __init__(self, bit, tolerance, has_stuff_bits=False):
        self.bit, self.tolerance, self.blocks, self.load = bit, tolerance, [], Load(bit, has_stuff_bits)
        self.durations = [(plain_bits(0) + BITS_OF_A_DIGIT * digits) * bit for digits in range(MOST_DIGITS + LONGER + 1)]
        self.squeeze, self.tight, self.loose, self.count = 0, 0, 0, 0

    def take(self, block):
        """The next block."""
        self.blocks = self.blocks[-1:] + [with_foreign(block) if block.aside else block]
        self.load.add(block)
        if block.rows and (self.count < ALL_UP_TO or self.count % EACH == 0):
            self._measure(block.rows)
        self.count += 1

    def _measure(self, rows):
        """Measures how far times are off: by how much frames come sooner than one can after the other."""
        before = rows[0][0]
        for time, _, data in rows:
            more = time - before - self.durations[len(data)]
            before = time
            if more < -self.squeeze:
                self.squeeze = -more
            if -1 <= more <= 1:
                self.tight += 1
            elif 1 < more * STUFFED < self.durations[len(data)]:
                self.loose += 1

    def slack(self, elapsed):
        """How long the bus may seem to be idle though it is busy, in a time: times are off, and frames have stuff bits."""
        off = min(2 * self.tolerance.jitter, SEEN * self.squeeze + BITS * self.bit + 2 * self.tolerance.coarse)
        return off + (0 if self.tight > self.loose else elapsed // SHARE)

    def waited_since(self, line, until=None, spare=0, lower=1, key=None):
        """The earliest moment from which on the frame of a line can have waited, as far as the bus was busy.

        It waits while frames with a lower identifier go before it, and one with a higher one that had started.
        Gaps count as busy as long as they are no longer in all than times may be off, and `spare` microseconds more;
        `lower` is how many frames with a higher identifier may stand among those before it. With a key it is told for
        a frame of that key which may have waited up to this line.
        """
        found = self._find(line)
        if found is None:
            return None
        rows, place = found
        time, own, data = rows[place]
        return self._since(time, key or own, self.durations[len(data)], self._before(rows, place), until, spare, lower)

    def waits_since(self, key, until, spare=0, lower=1):
        """The earliest moment from which on a frame with a key can wait that isn't there up to the end of the log."""
        rows = self.blocks[-1].rows
        return self._since(rows[-1][0], key, 0, self._before(rows, len(rows)), until, spare, lower)

    def _since(self, time, key, busy, before, until, spare, lower):
        """The earliest moment from which on a frame can have waited that is there at a time, of the frames before it.

        Where the bus was busy for all that is kept of the log, that is always.
        """
        since = time - busy
        for earlier, other, digits in before:
            if time - earlier > busy + self.slack(time - earlier) + spare or until is not None and since < until:
                break
            busy += self.durations[len(digits)]
            since = time - busy
            lower -= other > key
            if not lower:
                break
        else:
            return ALWAYS
        return since

    def _find(self, line):
        """The block of a line, and its place there."""
        for block in reversed(self.blocks):
            if block.numbers[0] <= line <= block.numbers[-1]:
                return block.rows, bisect.bisect_left(block.numbers, line)
        return None

    def _before(self, rows, place):
        """The frames before one, the last one first."""
        for at in range(place - 1, -1, -1):
            yield rows[at]
        if len(self.blocks) > 1 and rows is self.blocks[-1].rows:
            yield from reversed(self.blocks[0].rows)


def with_foreign(block):
    """A block with the frames that aren't of the network among its rows: others waited for them too."""
    rows = list(zip(block.numbers, block.rows))
    rows += [(each.line, (each.time, key_among(each), "0" * (2 * each.size + LONGER * each.is_long())))
             for each in block.aside if each.kind not in (FLEXIBLE, OTHER)]
    rows.sort(key=lambda each: each[0])
    return Block([row for _, row in rows], [number for number, _ in rows])


def key_among(aside):
    """A key that stands where a frame wins the bus: one of 29 bits behind that of 11 which it begins with, an error first."""
    number = 0 if aside.kind == ERROR else aside.identifier >> 18 if aside.is_long() else aside.identifier
    return f"{number:03X}~"
