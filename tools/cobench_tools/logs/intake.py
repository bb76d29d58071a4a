"""What is kept of the lines of a log: the frames of one channel in the order of time, block by block."""
from typing import Iterable, Iterator, List, NamedTuple, Optional, Sequence, Tuple, Union

from .. import tool
from .rows import Aside, Row

# What a line has: a frame with its channel, what it is besides, or nothing.
Found = Union[Tuple[int, str, str, str], Aside, None]


class SetBack(NamedTuple):
    """Where the clock of a log was set back: the time from which it goes on, the line, and by how many microseconds."""

    time: int
    line: int
    micros: int


class Block:
    """Frames of a log.

    rows      the time, the key and the bytes of each (see rows.py)
    numbers   the line of each
    aside     what there is besides
    set_back  how the clock was set back before its first line, None where it wasn't
    times     the time of each, once they are asked for: no row is added then
    """

    def __init__(self, rows: List[Row], numbers: Sequence[int], aside: Sequence[Aside] = (), set_back: Optional[SetBack] = None) -> None:
        self.rows, self.numbers, self.aside, self.set_back = rows, numbers, aside, set_back
        self._times: Optional[List[int]] = None

    @property
    def times(self) -> List[int]:
        if self._times is None:
            self._times = [time for time, _, _ in self.rows]
        return self._times


class Intake:
    """Keeps the frames of one channel, with times that go on.

    where    the log's name in what is said of it
    channel  the channel that is looked at, None where that isn't known yet; `is_chosen` whether the user chose it
    slack    by how many microseconds times may go backwards
    start    the time of the first frame, from which the seconds of a log count; `last` that of the last one
    shift    how far the clock was set back so far: times go on from the frame before
    """

    def __init__(self, where: str, channel: Optional[str], slack: int) -> None:
        self.where, self.channel, self.slack, self.is_chosen, self.shift = where, channel, slack, channel is not None, 0
        self.start: Optional[int] = None
        self.last: Optional[int] = None

    def kept(self, found: Iterable[Tuple[int, Found]]) -> Iterator[Block]:
        """The blocks of what is of the channel that is looked at."""
        rows, numbers, aside, back = [], [], [], None  # type: List[Row], List[int], List[Aside], Optional[SetBack]
        for number, each in found:
            if each is None or not (self._may_be_wanted(each.channel) if isinstance(each, Aside) else self._is_wanted(each[1], number)):
                continue
            time, set_back = self._in_order(each.time if isinstance(each, Aside) else each[0], number)
            if set_back:
                yield Block(rows, numbers, aside, back)
                rows, numbers, aside, back = [], [], [], set_back
            if isinstance(each, Aside):
                each.time, each.line = time, number
                aside.append(each)
            else:
                rows.append((time, each[2], each[3]))
                numbers.append(number)
        yield Block(rows, numbers, aside, back)

    def _may_be_wanted(self, channel: Optional[str]) -> bool:
        """Whether what is no frame of the network is looked at."""
        return channel is None or self.channel in (None, channel)

    def _is_wanted(self, channel: str, number: int) -> bool:
        """Whether frames of a channel are looked at: those of one channel alone."""
        if self.channel is None:
            self.channel = channel
        if channel == self.channel or self.is_chosen:
            return channel == self.channel
        raise tool.Fault(f"{self.where}:{number}: it has frames of {self.channel} and of {channel}; --channel takes those of one")

    def _in_order(self, time: int, number: int) -> Tuple[int, Optional[SetBack]]:
        """The time of a line, which isn't before that of the line before it, and how the clock was set back there, else None."""
        time, set_back = time + self.shift, None
        if self.last is not None and time < self.last:
            if self.last - time > self.slack:
                set_back = SetBack(self.last, number, self.last - time)
                self.shift += set_back.micros
            time = self.last
        self.start = time if self.start is None else self.start
        self.last = time
        return time, set_back
