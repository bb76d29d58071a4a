"""The bytes of PDOs beside those that they have in the planned run at the same time."""
from ..data_types import REALS
from ..device import object_name, value_at

SLACK = 300


class Expected:
    """Looks at the frames of a TPDO as long as the planned run goes on, and then no more.

    frames    those of the planned run: time and digits each
    is_exact  whether any other bytes are told, and not only two that are swapped
    """

    def __init__(self, judge, pdo, frames, is_exact):
        self.judge, self.pdo, self.frames, self.is_exact = judge, pdo, frames, is_exact
        self.alignment, self.place = judge.causes.alignment, 0
        self.end = frames[-1][0] + self._reach(frames[-1][0])

    def _reach(self, away):
        tolerance = self.judge.tolerance
        return 2 * tolerance.jitter + away * tolerance.clock // 1_000_000 + SLACK

    def take(self, time, data, number):
        """A frame of it came."""
        offset = self.alignment.offsets[0] if self.alignment.offsets else None
        if offset is not None:
            if time - offset > self.end:
                self.judge.handlers[self.pdo.key] = self.pdo.take
            elif len(data) == self.pdo.digits and self._differs(time - offset, data, time, number):
                self.pdo.data = data
                self.pdo.take(time, data, number)
                self.pdo.data = None
                return
        self.pdo.take(time, data, number)

    def _differs(self, moment, data, time, number):
        """Whether the bytes are other ones than planned, and that is told."""
        reach, frames = self._reach(moment), self.frames
        while self.place < len(frames) - 1 and frames[self.place][0] < moment - reach:
            self.place += 1
        near = [digits for at, digits in frames[self.place:self.place + 16] if abs(at - moment) <= reach]
        if not near or data in near:
            return False
        for digits in near:
            pair = swapped(digits, data)
            if pair:
                self.pdo.tell("pdo-swapped", f"bytes {pair[0]} and {pair[1]} are swapped: {spaced(data)}, and {spaced(digits)} is planned",
                              time, number)
                return True
        if self.is_exact:
            self.pdo.tell("pdo-value", f"it has {spaced(data)}, and {spaced(near[0])} is planned{self._reals(data, near[0])}", time, number)
        return self.is_exact

    def _reals(self, found, planned):
        """What that is in the REALs that differ, in words behind others."""
        parts = [part for part in self.pdo.tpdo.parts if part.entry.kind in REALS]
        pairs = [(part, *(value_at(bytes.fromhex(digits), part.start, part.bits, part.entry.kind) for digits in (found, planned)))
                 for part in parts]
        return "".join(f"; {object_name(part.key)} {part.entry.name}".rstrip() + f" is {one}, and {other} is planned"
                       for part, one, other in pairs if one != other)


def spaced(digits):
    return bytes.fromhex(digits).hex(" ").upper()


def swapped(planned, found):
    """The places from 1 on of two bytes that are swapped, where nothing else is other; else None."""
    one, other = bytes.fromhex(planned), bytes.fromhex(found)
    places = [place for place in range(min(len(one), len(other))) if one[place] != other[place]]
    if len(one) != len(other) or len(places) != 2:
        return None
    first, second = places
    return (first + 1, second + 1) if one[first] == other[second] and one[second] == other[first] else None
