"""Logs of Vector's tools (ASC): `   1.000055 1  181             Rx   d 4 37 06 A8 61`."""
import re

from ..digits import decimal, hexadecimal
from .rows import ERROR, EXTENDED, FLEXIBLE, GREATEST, OTHER, REMOTE, Aside, Unreadable, are_rows, key_of, micros, resolution

BASE = re.compile(r"base\s+(hex|dec)(?:\s+timestamps\s+(absolute|relative))?", re.IGNORECASE)
CLASSIC = re.compile(r"\s*([0-9]+\.[0-9]+)\s+([0-9]+)\s+([0-9A-Fa-f]+)(x?)\s+(?:Rx|Tx)\s+([dr])(?:\s+([0-9A-Fa-f]+)(.*))?")
FD = re.compile(r"\s*([0-9]+\.[0-9]+)\s+CANFD\s+([0-9]+)\s+(Rx|Tx)\s+([0-9A-Fa-f]+)(x?)\s+(.*)")
FAILED = re.compile(r"\s*([0-9]+\.[0-9]+)\s+(?:CANFD\s+)?([0-9]+)\s+(?:(?:Rx|Tx)\s+)?ErrorFrame.*", re.IGNORECASE)
TIMED = re.compile(r"\s*[0-9]+\.[0-9]+\s")
DATE = re.compile(r"date\s+\w+", re.IGNORECASE)
IS_FD = 1 << 12


class Asc:
    """Reads ASC."""

    name, title = "asc", "ASC"

    def __init__(self):
        self.resolution, self.base, self.is_relative, self.now = 1, 16, False, 0
        self._keys = {}

    @staticmethod
    def fits(lines):
        """Whether the first lines of a file are of this format."""
        return any(DATE.match(line) or BASE.match(line) or CLASSIC.fullmatch(line) for line in lines[:20])

    def row(self, line):
        """The time, channel, key and bytes of a line; or None, or what it is besides."""
        found = CLASSIC.fullmatch(line)
        if found:
            return self._classic(*found.groups())
        return self._flexible(line) or self._besides(line)

    def _besides(self, line):
        """What a line is that is no frame."""
        base = BASE.match(line)
        if base:
            self.base = 10 if base.group(1).lower() == "dec" else 16
            self.is_relative = (base.group(2) or "").lower() == "relative"
        if FAILED.fullmatch(line):
            stamp, channel = FAILED.fullmatch(line).groups()
            return Aside(ERROR, self._time(stamp), channel)
        if TIMED.match(line):
            time = self._time(line.split()[0])
            return None if "of measurement" in line or "TriggerBlock" in line else Aside(OTHER, time)
        return None

    def _time(self, text):
        """The microsecond of a line."""
        self.resolution = max(self.resolution, resolution(len(text.partition(".")[2]), 1_000_000))
        self.now = micros(text) + (self.now if self.is_relative else 0)
        return self.now

    def _classic(self, stamp, channel, identifier, extended, kind, size, data):
        time = self._time(stamp)
        size = hexadecimal(size or "0")
        if kind == "r" or extended:
            number = self._number(identifier)
            if kind == "r":
                return Aside(REMOTE, time, channel, number)
            return Aside(EXTENDED, time, channel, number, self._data(data, min(size, 8)))
        return self._frame(time, channel, identifier, min(size, 8), data)

    def _flexible(self, line):
        """A line of a bus with flexible data rate, which may be a classic frame; None for another one."""
        found = FD.fullmatch(line)
        if not found or found.group(6).lower().startswith("errorframe"):
            return None
        stamp, channel, _, identifier, extended, rest = found.groups()
        words = rest.split()
        words = words if words[0] in ("0", "1") and len(words) > 3 and words[1] in ("0", "1") else words[1:]
        size, behind = decimal(words[3]), words[4:]
        flags = hexadecimal(behind[size + 2]) if len(behind) > size + 2 else IS_FD
        time = self._time(stamp)
        if flags & IS_FD or extended:
            number = self._number(identifier)
            return Aside(FLEXIBLE if flags & IS_FD else EXTENDED, time, channel, number, self._data(" ".join(behind), size))
        return self._frame(time, channel, identifier, size, " ".join(behind))

    def _data(self, data, size):
        """The hexadecimal digits of so many bytes of a text."""
        return "".join(f"{self._number(byte):02X}" for byte in (data or "").split()[:size])

    def _number(self, text):
        """A number of the base that the file says."""
        return hexadecimal(text) if self.base == 16 else decimal(text)

    def _frame(self, time, channel, identifier, size, data):
        number = self._number(identifier)
        data = self._data(data, size)
        if number > GREATEST or len(data) != 2 * size:
            raise Unreadable("this is no frame")
        return time, channel, key_of(number), data

    def rows(self, text, channel):
        """The rows of whole lines, None where they aren't all of one shape."""
        mark = MARK.search(text)
        if self.is_relative or self.base != 16 or self.resolution > 1 or channel is None or not mark:
            return None
        try:
            rows = self._cut(text.splitlines(), channel, mark.group(1))
        except (ValueError, IndexError):
            return None
        return rows if rows is not None and are_rows(rows) and not set("".join({data for _, _, data in rows})) - HEX else None

    def _cut(self, lines, channel, mark):
        """The rows of lines; the mark stands between the direction and the number of bytes."""
        keys, rows = self._keys, []
        for line in lines:
            head, found, tail = line.partition(mark)
            stamp, number, identifier, _ = head.split()
            data, digits = tail[2:].replace(" ", ""), stamp[:-7] + stamp[-6:]
            if not found or number != channel or stamp[-7] != "." or len(data) != 2 * int(tail[0]) or not digits.isdecimal():
                return None
            if identifier not in keys:
                keys[identifier] = key_of(hexadecimal(identifier))
            rows.append((int(digits), keys[identifier], data))
        return rows


# What stands between the direction of a frame and its bytes.
MARK = re.compile(r"[RT](x +d +)[0-8](?: [0-9A-F]{2})*\s*\n")
HEX = set("0123456789ABCDEF")
