"""What the readers of all formats share: rows, and what is no frame of the network."""
import re
from typing import List, Optional, Tuple

from ..digits import decimal

# Frames that CANopen doesn't have, and that are counted and set aside: each by its name.
EXTENDED, FLEXIBLE, ERROR, REMOTE, OTHER = "29-bit", "FD", "error", "remote", "other"
NAMES = {
    EXTENDED: ("frame of 29 bits", "frames of 29 bits"), FLEXIBLE: ("FD frame", "FD frames"), ERROR: ("error frame", "error frames"),
    REMOTE: ("remote frame", "remote frames"), OTHER: ("line of another kind", "lines of another kind"),
}

LENGTHS = frozenset(range(0, 17, 2))
KEY = re.compile("[0-7][0-9A-F]{2}#")
ERROR_FLAG = 1 << 29
GREATEST = 0x7FF
LATEST = 10 ** 18       # microseconds that no recording has


# A frame: its time in microseconds, its key (three digits and `#`), and its bytes as digits.
Row = Tuple[int, str, str]


class Unreadable(Exception):
    """Why a line is none of its format."""


class Aside:
    """A line that is no frame of the network.

    kind        what it is
    time        its microsecond
    channel     that of a frame, None where the line has none
    identifier  that of a frame, None where the line has none
    data        the hexadecimal digits of the bytes of a frame
    line        its line, once it is known
    """

    __slots__ = "kind", "time", "channel", "identifier", "data", "line"

    def __init__(self, kind: str, time: int, channel: Optional[str] = None, identifier: Optional[int] = None, data: str = "") -> None:
        self.kind, self.time, self.channel, self.identifier, self.data = kind, time, channel, identifier, data
        self.line = 0

    @property
    def size(self) -> int:
        """How many bytes it has."""
        return len(self.data) // 2

    def is_long(self) -> bool:
        """Whether it has an identifier of 29 bits."""
        return self.kind == EXTENDED or self.identifier is not None and self.identifier > GREATEST


def key_of(identifier: int) -> str:
    """The key of an identifier: three digits and `#`, as candump writes them."""
    return f"{identifier:03X}#"


def micros(seconds: str) -> int:
    """A text of seconds as whole microseconds."""
    whole, _, part = seconds.partition(".")
    return in_time(decimal(whole) * 1_000_000 + decimal(f"{part[:6]:0<6}"))


def micros_of_millis(millis: str) -> int:
    """A text of milliseconds as whole microseconds."""
    whole, _, part = millis.partition(".")
    return in_time(decimal(whole) * 1000 + decimal(f"{part[:3]:0<3}"))


def in_time(time: int) -> int:
    """A microsecond that a recording can have; a ValueError for a later one."""
    if time >= LATEST:
        raise ValueError("no time")
    return time


def resolution(decimals: int, unit: int) -> int:
    """The microseconds that the last of so many decimals stands for, where 1 is a unit of so many."""
    return max(unit // 10 ** decimals, 1)


def are_rows(rows: List[Row]) -> bool:
    """Whether rows that were read quickly are frames, with times that don't go backwards."""
    times = [time for time, _, _ in rows]
    keys = {key for _, key, _ in rows}
    return (all(map(KEY.fullmatch, keys)) and LENGTHS.issuperset(map(len, [data for _, _, data in rows]))
            and times == sorted(times) and all(time < LATEST for time in times[-1:]))
