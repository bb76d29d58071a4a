"""The lines of a trace, and the traces among the replies of a session."""
import argparse
import functools
import io
import re
from typing import TYPE_CHECKING, Iterable, List, Optional, Sequence, Tuple, Union

from . import replies, tool, wire_bits
from .logs.rows import EXTENDED, GREATEST

if TYPE_CHECKING:
    from .project import Project

TIME = re.compile(rb"[0-9]{10} ")
FRAME = re.compile(rb"([0-7][0-9A-F]{2}) \[([0-8])\]((?: [0-9A-F]{2})*)")
NOTE = re.compile(rb"([0-9]{10}) note ([0-9]{1,3}) (configured|lost|failed (?:[0-9A-F]{8}|timeout|difference))")

# Microseconds a bit, by the bit rates that there are.
BIT_TIMES = (1, 2, 4, 8, 20, 50, 100)
BIT_RATES = [1000 // each for each in BIT_TIMES]

# The second of power-on in a log: readers as log2asc take second 0 for a log that has not begun.
LOG_START = 1


class Frame:
    """A frame on the bus: the time in microseconds at which it was there whole, its identifier and bytes."""

    def __init__(self, time: int, identifier: int, data: bytes) -> None:
        self.time, self.identifier, self.data = time, identifier, data

    @property
    def bits(self) -> int:
        """For how many bits it has the bus, without stuff bits: as runs of versions 1 and 2 count."""
        return wire_bits.plain_bits(len(self.data))

    @property
    def shown(self) -> str:
        """Its identifier as text."""
        return f"{self.identifier:03X}"

    @property
    def order(self) -> Tuple[bool, int, str]:
        """The place of its identifier among those of a table."""
        return False, self.identifier, ""

    def line(self) -> str:
        data = "".join(f" {byte:02X}" for byte in self.data)
        return f"{self.time:010} {self.identifier:03X} [{len(self.data)}]{data}"


class StuffedFrame(Frame):
    """A frame with its stuff bits, as runs of version 3 count."""

    @property
    def bits(self) -> int:
        return wire_bits.exact_bits(self.identifier, self.data)


class Foreign:
    """What a recording has besides the frames of the network: a frame of 29 bits, a remote frame, an error frame.

    kind        which of these, as logs/rows.py names it
    number      its identifier, None where it has none
    identifier  the bits of it by which it wins the bus as one of 11 bits does
    """

    def __init__(self, time: int, kind: str, number: Optional[int], data: bytes, bits: int) -> None:
        self.time, self.kind, self.number, self.data, self.bits = time, kind, number, data, bits
        self.identifier = 0 if number is None else number >> 18 if self.is_long() else number

    def is_long(self) -> bool:
        return self.number is not None and (self.kind == EXTENDED or self.number > GREATEST)

    @property
    def shown(self) -> str:
        return "-" if self.number is None else f"{self.number:08X}" if self.is_long() else f"{self.number:03X}"

    @property
    def order(self) -> Tuple[bool, int, str]:
        return True, self.number or 0, self.kind


class Note:
    """What the manager notes of a node."""

    def __init__(self, time: int, node: int, what: str) -> None:
        self.time, self.node, self.what = time, node, what


Line = Union[Frame, Foreign, Note]


@functools.lru_cache(maxsize=1 << 16)
def frame_behind(text: bytes) -> Optional[Tuple[int, bytes]]:
    """Identifier and bytes of a frame whose line has this text behind its time, else None."""
    frame = FRAME.fullmatch(text)
    data = bytes.fromhex(frame.group(3).decode()) if frame else b""
    return (int(frame.group(1), 16), data) if frame and len(data) == int(frame.group(2)) else None


def line_of(line: bytes) -> Optional[Line]:
    """The frame or note of a line, else None."""
    frame = frame_behind(line[11:]) if TIME.match(line) else None
    if frame:
        return Frame(int(line[:10]), *frame)
    note = NOTE.fullmatch(line)
    return Note(int(note.group(1)), int(note.group(2)), note.group(3).decode()) if note else None


def trace_of(lines: Iterable[bytes]) -> Optional[List[Line]]:
    """The frames and notes of these lines, or None where they are no trace, as the files that `dcf` prints."""
    found = []
    for line in lines:
        read = line_of(line)
        if read is None:
            return None
        found.append(read)
    return found


def of_answer(lines: Iterable[bytes], project: "Optional[Project]" = None) -> List[Line]:
    """The trace that cobench answered of a project."""
    found = trace_of(lines)
    if found is None:
        raise tool.Fault("cobench's answer to trace has a line that is none of a trace")
    return counted(found, project)


def has_stuff_bits(project: "Optional[Project]") -> bool:
    """Whether the frames of a project's run have their stuff bits."""
    return project is not None and project.version >= 3


def counted(lines: List[Line], project: "Optional[Project]") -> List[Line]:
    """These lines, with frames whose bits are counted as in the runs of a project."""
    return stuffed(lines) if has_stuff_bits(project) else lines


def is_stuffed(lines: Iterable[Line]) -> bool:
    """Whether the frames of these lines have their stuff bits."""
    return any(isinstance(line, StuffedFrame) for line in lines)


def stuffed(lines: List[Line]) -> List[Line]:
    """These lines, with frames that have their stuff bits."""
    return [StuffedFrame(line.time, line.identifier, line.data) if isinstance(line, Frame) else line for line in lines]


def bit_time(lines: Sequence[Line], project: "Optional[Project]") -> int:
    """Microseconds a bit: by the bit rate, or by the first frame, which starts at 0."""
    return 1000 // project.bitrate if project else guessed_bit_time(lines) or 1


def guessed_bit_time(lines: Sequence[Line]) -> Optional[int]:
    """The same by the first frame of a trace, None where that doesn't tell it."""
    first = next((line for line in lines if isinstance(line, Frame)), None)
    time = first.time / first.bits if first else 1
    return int(time) if time in BIT_TIMES else None


def as_counted(lines: List[Line]) -> List[Line]:
    """The lines of a trace of which no project is known: its first frame tells whether their stuff bits are counted."""
    with_them = stuffed(lines)
    return with_them if not guessed_bit_time(lines) and guessed_bit_time(with_them) else lines


def frames_of(lines: Iterable[Line]) -> List[Tuple[int, int, bytes]]:
    """The frames of a trace: the time, identifier and bytes of each."""
    return [(line.time, line.identifier, line.data) for line in lines if isinstance(line, Frame)]


def is_session(text: bytes) -> bool:
    return re.match(rb"(ok|refused [1-9] [A-Za-z]+|lines [0-9]+)\r?(\n|$)", text) is not None


def traces_of(path: str, text: bytes) -> List[List[Line]]:
    """The traces that a text has: the lines of one, or the replies of a session with some."""
    where = tool.name_of(path)
    if is_session(text):
        session = replies.session_of(path, text)
        if session.cut:
            raise tool.Fault(f"{session.cut}: the replies are cut")
        answers = [trace_of(reply.lines) for reply in session.replies if reply.lines]
        return [answer for answer in answers if answer]
    found = []
    for number, line in enumerate(io.BytesIO(text), 1):
        if not line.endswith(b"\n"):
            raise tool.Fault(f"{where}:{number}: the last line is cut")
        read = line_of(line.rstrip(b"\n").rstrip(b"\r"))
        if read is None:
            raise tool.Fault(f"{where}:{number}: this is no line of a trace: {tool.shown(line[:60].rstrip())}")
        found.append(read)
    return [found] if found else []


def pick(path: str, traces: List[List[Line]], wanted: Optional[int]) -> List[Line]:
    """The wanted trace, counted from 1; without a wish the first one, with a warning where there are more."""
    if not traces:
        raise tool.Fault(f"{tool.name_of(path)}: there is no trace with lines in it")
    if wanted is not None and not 1 <= wanted <= len(traces):
        raise tool.Fault(f"{tool.name_of(path)}: it has {len(traces)} traces, and no trace {wanted}")
    if wanted is None and len(traces) > 1:
        tool.say(f"{tool.name_of(path)} has {len(traces)} traces; this is the first, and --trace 2 takes the next")
    return traces[(wanted or 1) - 1]


def add_arguments(parser: argparse.ArgumentParser) -> None:
    """The word that chooses a trace."""
    parser.add_argument("--trace", metavar="N", type=int, help="take the Nth trace of the session, not the first")
