"""Logs of PEAK's tools (TRC): 1.0 and 1.1, `  1)  0.1  Rx  0181  4  37 06 A8 61`, and 2.0 and 2.1 by their columns."""
import re

from ..digits import decimal, hexadecimal
from .rows import ERROR, EXTENDED, FLEXIBLE, GREATEST, OTHER, REMOTE, Aside, Unreadable, are_rows, key_of, micros_of_millis, resolution

VERSION = re.compile(r";\$FILEVERSION=([0-9.]+)")
COLUMNS = re.compile(r";\$COLUMNS=(\S+)")
NUMBERED = re.compile(r"\s*[0-9]+\)\s+[0-9.]+\s")
VERSIONS = ("1.0", "1.1", "2.0", "2.1")
OLD = {"1.0": "N,O,I,L,D", "1.1": "N,O,d,I,L,D", "2.0": "N,O,T,I,d,l,D", "2.1": "N,O,T,B,I,d,R,L,D"}
KINDS = {"FD": FLEXIBLE, "FB": FLEXIBLE, "FE": FLEXIBLE, "BI": FLEXIBLE, "RR": REMOTE, "ER": ERROR, "EC": OTHER, "ST": OTHER, "EV": OTHER}
HEX = frozenset("0123456789ABCDEF")
SIZES = {str(size): size for size in range(9)}


class Trc:
    """Reads TRC; which columns a line has, the head of the file says."""

    name, title = "trc", "TRC"

    def __init__(self):
        self.resolution, self.version, self._keys = 1, "1.0", {}
        self._take_columns(OLD["1.0"])

    def _take_columns(self, text):
        """Finds the places of the columns."""
        places = {column: place for place, column in enumerate(text.split(","))}
        if not {"O", "I", "D"} <= set(places) or not {"L", "l"} & set(places) or places["D"] != len(places) - 1:
            raise Unreadable("cobtool doesn't know these columns of TRC")
        self.places, self.width = places, len(places)
        self.time_place, self.id_place, self.data_place = places["O"], places["I"], places["D"]
        self.size_place, self.kind_place, self.bus_place = places.get("L", places.get("l")), places.get("T"), places.get("B")

    @staticmethod
    def fits(lines):
        """Whether the first lines of a file are of this format."""
        return any(VERSION.match(line) or NUMBERED.match(line) for line in lines[:30])

    def row(self, line):
        """The time, channel, key and bytes of a line; or None, or what it is besides."""
        if line.startswith(";") or not line.strip():
            return self._take_head(line)
        words = line.split()
        if len(words) < self.width - 1:
            return self._short(words)
        try:
            return self._frame(words)
        except (ValueError, IndexError):
            raise Unreadable("this is no line of TRC") from None

    def _take_head(self, line):
        version, columns = VERSION.match(line), COLUMNS.match(line)
        if version:
            self.version = version.group(1)
            if self.version not in VERSIONS:
                raise Unreadable(f"this is TRC {self.version}; cobtool reads {', '.join(VERSIONS)}")
            self._take_columns(OLD[self.version])
        if columns:
            self._take_columns(columns.group(1))

    def _short(self, words):
        """A line with fewer columns than a frame: a warning, or what says that there was an error."""
        if len(words) > 2 and ("Error" in words or "Warng" in words or set(words) & {"ER", "ST", "EC", "EV"}):
            return Aside(ERROR if "Error" in words or "ER" in words else OTHER, micros_of_millis(words[self.time_place]))
        raise Unreadable("this is no line of TRC")

    def _frame(self, words):
        self.resolution = max(self.resolution, resolution(len(words[self.time_place].partition(".")[2]), 1000))
        time, identifier = micros_of_millis(words[self.time_place]), words[self.id_place]
        kind = words[self.kind_place] if self.kind_place is not None else words[2] if "d" in self.places else ""
        if kind in KINDS or kind in ("Error", "Warng"):
            return self._other(KINDS.get(kind, ERROR if kind == "Error" else OTHER), time, identifier)
        data, size = words[self.data_place:], decimal(words[self.size_place])
        channel = words[self.bus_place] if self.bus_place is not None else "1"
        if data[:1] in (["RTR"], ["R"]):
            return Aside(REMOTE, time, channel, hexadecimal(identifier))
        text = "".join(data[:size]).upper()
        if len(text) != 2 * min(size, 8) or set(text) - HEX:
            raise Unreadable("this is no line of TRC")
        if len(identifier) == 8 or hexadecimal(identifier) > GREATEST:
            return Aside(EXTENDED, time, channel, hexadecimal(identifier), text)
        return time, channel, key_of(hexadecimal(identifier)), text

    @staticmethod
    def _other(kind, time, identifier):
        """A line of a kind that the column of kinds says; errors and status have no identifier."""
        return Aside(kind, time, None, hexadecimal(identifier) if kind in (REMOTE, FLEXIBLE) else None)

    def rows(self, text, channel):
        """The rows of whole lines, None where they aren't all of one shape."""
        if self.resolution > 100 or channel is None or self.kind_place is None and "d" not in self.places:
            return None
        try:
            rows = self._cut(text.splitlines(), channel)
        except (ValueError, IndexError):
            return None
        return rows if rows is not None and are_rows(rows) and not set("".join({data for _, _, data in rows})) - HEX else None

    def _cut(self, lines, channel):
        keys, rows, first, bus, wanted = self._keys, [], self.data_place, self.bus_place, self._plain_kind()
        time_place, id_place, size_place, (kind_place, kinds) = self.time_place, self.id_place, self.size_place, wanted
        digits, scale = (4, 1) if self.resolution == 1 else (2, 100)
        for line in lines:
            words = line.split()
            stamp, identifier, data = words[time_place], words[id_place], words[first:]
            ticks = stamp[:-digits] + stamp[1 - digits:]
            if words[kind_place] not in kinds or stamp[-digits] != "." or SIZES.get(words[size_place]) != len(data):
                return None
            if len(identifier) > 4 or not ticks.isdecimal():
                return None
            if bus is not None and words[bus] != channel:
                return None
            if identifier not in keys:
                keys[identifier] = key_of(hexadecimal(identifier))
            rows.append((int(ticks) * scale, keys[identifier], "".join(data)))
        return rows

    def _plain_kind(self):
        """The column that says that a line is a plain frame, and by which words."""
        return (self.kind_place, ("DT",)) if self.kind_place is not None else (self.places["d"], ("Rx", "Tx"))
