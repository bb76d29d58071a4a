"""Logs of can-utils: `(1700000000.123456) can0 181#3706A861`, with or without ` R` or ` T` behind."""
import re

from .rows import ERROR, ERROR_FLAG, EXTENDED, FLEXIBLE, GREATEST, REMOTE, Aside, Unreadable, are_rows, key_of, micros, resolution

LINE = re.compile(r"\(\s*([0-9]+\.[0-9]+)\)\s+(\S+)\s+([0-9A-Fa-f]{3}|[0-9A-Fa-f]{8})#(\S*)(?:\s+[RT])?\s*")
DATA = re.compile("(?:[0-9A-Fa-f]{2}){0,8}")
HEAD = re.compile(r"\(([0-9]+)([0-9]{6})\) (\S+) [0-9A-F]{3}#[0-9A-F]*( [RT]|)(\r|)")
MOST_OF_29 = (1 << 29) - 1
REMOTE_DATA = re.compile("R[0-9A-F]?")


class Candump:
    """Reads logs of can-utils."""

    name, title = "log", "candump -L"

    def __init__(self):
        self.resolution = 1

    @staticmethod
    def fits(lines):
        """Whether the first lines of a file are of this format."""
        return any(map(LINE.fullmatch, lines[:20]))

    def row(self, line):
        """The time, channel, key and bytes of a line; or None, or what it is besides."""
        if not line.strip():
            return None
        found = LINE.fullmatch(line)
        if not found:
            raise Unreadable("this is no line of candump -L")
        time, channel, identifier, data = found.groups()
        self.resolution = max(self.resolution, resolution(len(time.partition(".")[2]), 1_000_000))
        kind, number = kind_of(identifier, data), int(identifier, 16)
        if kind:
            number, data = None if kind == ERROR else number & MOST_OF_29, data.upper() if kind == EXTENDED else ""
            return Aside(kind, micros(time), channel, number, data)
        return micros(time), channel, key_of(number), data.upper()

    def rows(self, text, channel):
        """The rows of whole lines, None where they aren't all of one shape."""
        if self.resolution > 1 or "." in (channel or ""):
            return None
        plain = text.replace(".", "")
        head = HEAD.match(plain)
        lines = plain.split("\n")
        lines.pop()
        if not head or len(plain) + len(lines) != len(text):
            return None
        return self._cut(plain, lines, head, channel)

    @staticmethod
    def _cut(plain, lines, head, channel):
        """The rows of lines that have the same columns as the first one."""
        digits, name, flags, end = head.end(2), head.group(3), head.group(4), head.group(5)
        count, place = len(lines), head.end(3) + 1
        if channel not in (None, name) or not has_one_shape(plain, count, name, flags, end):
            return None
        last = -len(flags + end) or None
        try:
            rows = [(int(line[1:digits]), line[place:place + 4], line[place + 4:last]) for line in lines]
        except ValueError:
            return None
        return rows if are_rows(rows) else None


def has_one_shape(plain, count, name, flags, end):
    """Whether that many lines all have the parts of one of them."""
    if plain.count(f") {name} ") != count or plain.count("#") != count or plain.count("\r") != count * bool(end):
        return False
    if flags and plain.count(" R") + plain.count(" T") != count or not flags and ("R" in plain or "T" in plain):
        return False
    return plain.isascii() and plain.translate(WITHOUT) == name.translate(WITHOUT) * count


# What a log of frames has besides the name of its channel.
WITHOUT = str.maketrans("", "", "0123456789ABCDEF#() \r\nRT")


def kind_of(identifier, data):
    """What a frame is that the network doesn't have, else None."""
    if len(identifier) == 8 and int(identifier, 16) & ERROR_FLAG:
        return ERROR
    if data.startswith("#"):
        return FLEXIBLE
    if REMOTE_DATA.fullmatch(data):
        return REMOTE
    if not DATA.fullmatch(data) or len(identifier) < 8 and int(identifier, 16) > GREATEST:
        raise Unreadable("this is no frame")
    return EXTENDED if len(identifier) == 8 else None
