"""The times in which a bus has no pause: one frame follows on the other."""
from .trace import Note

LEAST = 1000     # microseconds
SDO = range(0x581, 0x680)


class Full:
    """A time without a pause, and for how much of it the frames are SDO."""

    def __init__(self, start):
        self.start = self.end = start
        self.sdo = 0

    def within(self, start, end):
        """How much of it lies between two times."""
        return max(0, min(self.end, end) - max(self.start, start))

    def words(self):
        """`full of SDO from 25.460 to 51.512 ms`."""
        is_sdo = 2 * self.sdo > self.end - self.start
        what, more = ("of SDO ", "") if is_sdo else ("", "; cobtool load says of what")
        return f"full {what}from {self.start / 1000:,.3f} to {self.end / 1000:,.3f} ms{more}"


def spans_of(lines, bit):
    """Those of a trace that are no shorter than `LEAST`."""
    found, now = [], Full(0)
    for line in lines:
        if isinstance(line, Note):
            continue
        time = line.bits * bit
        if line.time - time > now.end:
            found.append(now)
            now = Full(line.time - time)
        now.end = line.time
        now.sdo += time if line.identifier in SDO else 0
    return [each for each in found + [now] if each.end - each.start >= LEAST]


def most_of(spans, start, end):
    """The one of them that fills more than half of a time, else None."""
    longest = max(spans, key=lambda each: each.within(start, end), default=None)
    return longest if longest and 2 * longest.within(start, end) > end - start else None
