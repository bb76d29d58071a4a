"""Which part of a log is looked at: from a moment to another, each in seconds of the log or as a line of it."""
import bisect
import re

from .. import tool

SECONDS = re.compile(r"[0-9]{1,9}(?:\.[0-9]{1,6})?")
LINE = re.compile(r"[Ll]([0-9]{1,12})")


class Moment:
    """A moment of a log: `micros` from its first frame on, or the line `line`; the other one is None."""

    def __init__(self, text, name):
        line = LINE.fullmatch(text)
        if not line and not SECONDS.fullmatch(text):
            raise tool.Fault(f"--{name} is seconds of the log, as 12.5, or a line of it, as L1234, not {text}")
        self.line = int(line.group(1)) if line else None
        self.micros = None if line else round(float(text) * 1_000_000)

    def place(self, times, numbers, start, behind):
        """Where a block is cut that has these times and lines; `behind` is 1 where the moment itself is taken before it."""
        find = bisect.bisect_right if behind else bisect.bisect_left
        return find(numbers, self.line) if self.line is not None else find(times, start + self.micros)


class Part:
    """The part of a log that is looked at; each end of it may be left open.

    is_over  whether all of it was read
    """

    def __init__(self, first=None, last=None):
        self.first = Moment(first, "from") if first is not None else None
        self.last = Moment(last, "to") if last is not None else None
        self.is_over = False

    def is_all(self):
        return self.first is None and self.last is None

    def is_before(self, line):
        """Whether a line is known to come before the part, whatever it has."""
        return self.first is not None and self.first.line is not None and line < self.first.line

    def is_behind(self, line, since):
        """Whether a line comes behind the part: by its number, or by the microseconds from the first frame to the one before it."""
        if self.last is None:
            return False
        is_behind = line > self.last.line if self.last.line is not None else since is not None and since > self.last.micros
        self.is_over = self.is_over or is_behind
        return is_behind

    def cut(self, times, numbers, start):
        """From which place to which a block belongs to the part."""
        first = self.first.place(times, numbers, start, 0) if self.first else 0
        last = self.last.place(times, numbers, start, 1) if self.last else len(times)
        self.is_over = self.is_over or last < len(times)
        return first, max(first, last)


def add_arguments(parser):
    """The words that choose a part."""
    parser.add_argument("--from", dest="first", metavar="WHEN",
                        help="leave out what is before it: seconds of LOG, as 12.5, or a line, as L1234")
    parser.add_argument("--to", dest="last", metavar="WHEN", help="leave out what is behind it")
