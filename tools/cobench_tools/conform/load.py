"""How full the bus of a log was, and by whose frames."""
import bisect
from collections import Counter
from operator import itemgetter

from ..logs.rows import ERROR, EXTENDED, FLEXIBLE, OTHER, REMOTE
from ..wire_bits import exact_bits

KEY = itemgetter(1)
WINDOW = 100_000
MOST_WINDOWS = 1_000_000

# The bits of a frame of n bytes without stuff bits and with the most: so many, and so many more for each byte.
FRAME, LONG_FRAME = ((47, 8), (55, 10)), ((67, 8), (80, 10))

# An error frame has its flag, which others make longer, its delimiter, and the room behind it.
ERROR_FRAME = (17, 0), (23, 0)

PLANNED, UNPLANNED = "planned", "other 11-bit identifiers"
WHOSE = {EXTENDED: "frames of 29 bits", REMOTE: "remote frames", ERROR: "error frames"}


def shape_of(aside):
    """The bits of what isn't a frame of the network."""
    return ERROR_FRAME if aside.kind == ERROR else LONG_FRAME if aside.is_long() else FRAME


def bits_of(shape, frames, size):
    """The bits of so many frames that have so many bytes together, and the most that they can have."""
    (plain, each), (longest, each_longest) = shape
    return plain * frames + each * size, longest * frames + each_longest * size


class Load:
    """How full the bus was in each window of 100 ms, by all frames but those of flexible data rate.

    bits     of each window from the first one on, without stuff bits; `most` is the same with the most stuff bits
    is_exact whether both count the stuff bits that frames of 11 bits have
    planned  the keys of the frames that the plan has
    of       whose the bits are that the plan doesn't have, in words
    """

    def __init__(self, bit, is_exact=False):
        self.bit, self.is_exact, self.start, self.bits, self.most = bit, is_exact, None, [], []
        self.last, self.planned, self.of = None, frozenset(), Counter()

    def add(self, block):
        """Counts the frames of a block."""
        aside = [each for each in block.aside if each.kind not in (FLEXIBLE, OTHER)]
        ends = block.times[:1] + block.times[-1:] + [each.time for each in aside[:1] + aside[-1:]]
        if not ends:
            return
        self.start = min(ends) if self.start is None else self.start
        self.last = max(ends)
        self._add_rows(block.rows, block.times)
        for each in aside:
            self._add_other(each)

    def _add_rows(self, rows, times):
        place = 0
        while place < len(rows):
            window = (times[place] - self.start) // WINDOW
            end = bisect.bisect_left(times, self.start + (window + 1) * WINDOW, place)
            self._fill(window, *self._bits_of(rows[place:end]))
            place = end
        if not self.planned.issuperset(map(KEY, rows)):
            self.of[UNPLANNED] += self._bits_of([row for row in rows if row[1] not in self.planned])[0]

    def _bits_of(self, rows):
        """The bits of frames of 11 bits, and the most that they can have."""
        if self.is_exact:
            return 2 * (sum(exact_bits(int(key[:3], 16), bytes.fromhex(data)) for _, key, data in rows),)
        return bits_of(FRAME, len(rows), sum([len(data) for _, _, data in rows]) // 2)

    def _add_other(self, aside):
        """Counts a frame that isn't one of the network."""
        shape = shape_of(aside)
        self._fill((aside.time - self.start) // WINDOW, *bits_of(shape, 1, aside.size))
        self.of[WHOSE[aside.kind]] += shape[0][0] + shape[0][1] * aside.size

    def _fill(self, window, bits, most):
        missing = window + 1 - len(self.bits)
        if missing > 0:
            self.bits += [0] * min(missing, MOST_WINDOWS)
            self.most += [0] * min(missing, MOST_WINDOWS)
        window = min(window, len(self.bits) - 1)
        self.bits[window] += bits
        self.most[window] += most

    def shares(self, bits):
        """The share of each window in per cent, the last one but for what the log has of it."""
        if self.start is None:
            return []
        rest = max(self.last - self.start - (len(bits) - 1) * WINDOW, 0)
        widths = [WINDOW] * (len(bits) - 1) + [rest if len(bits) > 1 else max(rest, 1)]
        return [100 * each * self.bit / width if width * 4 >= WINDOW or len(bits) == 1 else 0
                for each, width in zip(bits, widths)]

    def percent(self, bits):
        """The share of so many bits of all of the log."""
        return 100 * bits * self.bit / max(self.last - self.start, sum(self.bits) * self.bit, 1)

    def total(self, bits):
        """The share of all of the log in per cent."""
        return self.percent(sum(bits))

    def whose(self):
        """The share of the log that the frames of each have, in per cent: those that are planned first."""
        planned = {PLANNED: sum(self.bits) - sum(self.of.values())}
        return {words: self.percent(bits) for words, bits in [*planned.items(), *sorted(self.of.items())]}
