"""Logs as python-can writes them as CSV: `1.000055,0x181,0,0,0,4,NwaoYQ==`."""
import binascii
import re

from ..digits import decimal, hexadecimal
from .rows import ERROR, EXTENDED, GREATEST, REMOTE, Aside, Unreadable, are_rows, key_of, micros

HEAD = "timestamp,arbitration_id,extended,remote,error,dlc,data"
LINE = re.compile(r"([0-9]+(?:\.[0-9]+)?(?:[eE][-+]?[0-9]+)?),0x([0-9a-fA-F]+),([01]),([01]),([01]),([0-9]+),([A-Za-z0-9+/=]*)\s*")
CHANNEL = ""
LATEST = 1e12      # so many seconds no recording has
MOST_KEPT = 1 << 16


def micros_of_float(text):
    """A text of seconds with an exponent, or with many digits, as whole microseconds."""
    seconds = float(text)
    if not seconds < LATEST:
        raise ValueError("no time")
    return round(seconds * 1_000_000)


class Table:
    """Reads CSV of python-can, which has no name of a channel."""

    name, title = "csv", "CSV of python-can"

    def __init__(self):
        self.resolution, self._keys, self._bytes = 1, {}, {}

    @staticmethod
    def fits(lines):
        """Whether the first lines of a file are of this format."""
        return any(line.strip() == HEAD for line in lines[:1])

    def row(self, line):
        """The time, channel, key and bytes of a line; or None, or what it is besides."""
        if not line.strip() or line.strip() == HEAD:
            return None
        found = LINE.fullmatch(line)
        if not found:
            raise Unreadable("this is no line of a CSV of python-can")
        stamp, identifier, extended, remote, error, size, data = found.groups()
        if error == "1":
            return Aside(ERROR, self._time(stamp))
        if remote == "1":
            return Aside(REMOTE, self._time(stamp), CHANNEL, hexadecimal(identifier))
        if extended == "1":
            return Aside(EXTENDED, self._time(stamp), CHANNEL, hexadecimal(identifier), self._data(data, decimal(size)))
        return self._time(stamp), CHANNEL, self._key(identifier), self._data(data, decimal(size))

    def _time(self, stamp):
        if "e" in stamp.lower() or len(stamp.partition(".")[2]) > 6:
            return micros_of_float(stamp)
        return micros(stamp)

    @staticmethod
    def _key(identifier):
        number = hexadecimal(identifier)
        if number > GREATEST:
            raise Unreadable("this is no frame")
        return key_of(number)

    @staticmethod
    def _data(text, size):
        try:
            data = binascii.a2b_base64(text).hex().upper()
        except binascii.Error:
            raise Unreadable("its bytes are no base64") from None
        if len(data) != 2 * size or size > 8:
            raise Unreadable("this is no frame")
        return data

    def rows(self, text, channel):
        """The rows of whole lines, None where they aren't all of one shape."""
        try:
            rows = self._cut(text.splitlines())
        except (ValueError, Unreadable):
            return None
        return rows if rows is not None and are_rows(rows) else None

    def _cut(self, lines):
        keys, known, rows = self._keys, self._bytes, []
        if len(known) > MOST_KEPT:
            known.clear()
        for line in lines:
            stamp, identifier, extended, remote, error, size, data = line.split(",")
            if extended != "0" or remote != "0" or error != "0" or not stamp.replace(".", "", 1).isdecimal():
                return None
            if identifier not in keys:
                if identifier[:2] != "0x":
                    return None
                keys[identifier] = self._key(identifier[2:])
            if data not in known:
                known[data] = self._data(data, decimal(size))
            rows.append((int(float(stamp) * 1e6 + 0.5), keys[identifier], known[data]))
        return rows
