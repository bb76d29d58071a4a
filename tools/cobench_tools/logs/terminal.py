"""What candump of can-utils prints on a terminal: `  can0  181   [4]  37 06 A8 61`, with a time in front where `-t` is given."""
import calendar
import re
import time

from .rows import ERROR, ERROR_FLAG, EXTENDED, FLEXIBLE, GREATEST, REMOTE, Aside, Unreadable, key_of, micros

COLOUR = re.compile("\x1b\\[[0-9;]*m")
STAMP = re.compile(r"\s*\(([0-9]+\.[0-9]{6})\)|\s*\(([0-9]{4}-[0-9]{2}-[0-9]{2} [0-9]{2}:[0-9]{2}:[0-9]{2})(\.[0-9]{6})\)")
LINE = re.compile(r"\s*(\S+)\s+(?:[RT]X [B-] [E-]\s+)?([0-9A-F]{3}|[0-9A-F]{8})\s+\[([0-9]{1,2})\](.*)")
DATA = re.compile(r"((?:\s+[0-9A-F]{2}){0,64})(?:\s+'.*)?\s*")
MOST_OF_29 = (1 << 29) - 1

# So many microseconds times may be off where there are none; and how far frames then stand from each other.
NO_TIMES, STEP = 1 << 40, 1_000

# `-t d` has the time since the frame before: so many stamps of a file are below the one before them.
SHARE = 8


class Terminal:
    """Reads what candump prints; what its times count from, the first lines show.

    has_times  whether there are any; without them each frame stands a millisecond behind the one before it
    """

    name, title = "candump", "candump"

    def __init__(self):
        self.resolution, self.is_delta, self.has_times, self.now = 1, False, True, 0

    @staticmethod
    def fits(lines):
        """Whether the first lines of a file are of this format."""
        return any(LINE.fullmatch(without_stamp(line)) for line in lines[:20])

    def begin(self, lines):
        """Finds what the times count from: `-t d` gives the time since the frame before, others go on."""
        stamps = [each for each in map(stamp_of, lines) if each is not None]
        steps = list(zip(stamps, stamps[1:]))
        self.has_times = bool(stamps)
        self.resolution = 1 if stamps else NO_TIMES
        self.is_delta = sum(later < earlier for earlier, later in steps) * SHARE > len(steps)

    def row(self, line):
        """The time, channel, key and bytes of a line; or None, or what it is besides."""
        if not line.strip() or line.startswith("\t"):
            return None
        found = LINE.fullmatch(without_stamp(line))
        if not found:
            raise Unreadable("this is no line of candump")
        return self._frame(self._time(stamp_of(line)), *found.groups())

    def _time(self, stamp):
        """The microsecond of a line."""
        if (stamp is not None) != self.has_times:
            raise Unreadable(f"this line has {'no' if self.has_times else 'a'} time, and others have {'one' if self.has_times else 'none'}")
        if not self.has_times:
            self.now += STEP
        else:
            self.now = self.now + stamp if self.is_delta else stamp
        return self.now

    @staticmethod
    def _frame(now, channel, identifier, size, behind):
        number, is_long = int(identifier, 16), len(identifier) == 8
        if is_long and number & ERROR_FLAG or "ERRORFRAME" in behind:
            return Aside(ERROR, now, channel)
        if "remote request" in behind:
            return Aside(REMOTE, now, channel, number & MOST_OF_29)
        found = DATA.fullmatch(behind)
        data = found.group(1).replace(" ", "") if found else ""
        if not found or len(data) != 2 * int(size) or not is_long and number > GREATEST:
            raise Unreadable("this is no frame")
        if len(size) > 1:
            return Aside(FLEXIBLE, now, channel, number & MOST_OF_29, data)
        if is_long:
            return Aside(EXTENDED, now, channel, number & MOST_OF_29, data)
        return now, channel, key_of(number), data

    def rows(self, text, channel):
        """Nothing is read quickly."""
        return None


def without_stamp(line):
    """A line without its colours and without the time in front of it."""
    line = COLOUR.sub("", line)
    found = STAMP.match(line)
    return line[found.end():] if found else line


def stamp_of(line):
    """The microseconds in front of a line, None where it has none that are a time."""
    found = STAMP.match(COLOUR.sub("", line))
    try:
        return micros_of(*found.groups()) if found else None
    except ValueError:
        return None


def micros_of(seconds, day, part):
    """The microseconds of a time in front of a line: its seconds, or its day and what is behind that."""
    return micros(seconds) if seconds else calendar.timegm(time.strptime(day, "%Y-%m-%d %H:%M:%S")) * 1_000_000 + micros(f"0{part}")
