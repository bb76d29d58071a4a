"""Reads a log of any format in blocks of frames, in one pass and with little memory."""
import copy
import gzip
import io
import typing
import zlib
from collections import Counter
from typing import Iterable, Iterator, List, Optional, Sequence, Tuple, cast

from .. import opening, safe_text, tool
from . import messages
from .asc import Asc
from .candump import Candump
from .intake import Block, Found, Intake
from .part import Part
from .rows import Row, Unreadable
from .table import Table
from .terminal import Terminal
from .trc import Trc

FORMATS = (Candump, Asc, Trc, Table, Terminal)
NAMES = {"log": Candump, "candump": Terminal, "asc": Asc, "trc": Trc, "trc21": Trc, "csv": Table}
BLOCK = 1 << 16
LONGEST_LINE = 1 << 14
GZIP = b"\x1f\x8b"


class Log(Intake):
    """A log that is open.

    aside      how many lines of each other kind there were
    frames     how many frames there were
    cut        the line that is cut at its end, None for none: such a one is a fault unless it may be
    size       the bytes of the file, 0 where they aren't known; `position` is how many of them were read
    """

    def __init__(self, path: str, wanted: Optional[str] = None, channel: Optional[str] = None, slack: int = 0,
                 part: Optional[Part] = None, may_be_cut: bool = False) -> None:
        super().__init__(tool.name_of(path), channel, slack)
        self.path, self.wanted, self.part, self.may_be_cut = path, wanted, part or Part(), may_be_cut
        self.aside: "typing.Counter[str]" = Counter()
        self.frames, self.line, self.is_ended = 0, 0, False
        self.cut: Optional[int] = None
        self.file, self.size = opened(path)
        kind = messages.kind_of(self.file.peek(16)) if path != "-" else None
        self.is_text = kind is None
        self.format = self._text_format() if self.is_text else messages.Messages(path, kind)

    @property
    def has_times(self) -> bool:
        """Whether it says when its frames came."""
        return getattr(self.format, "has_times", True)

    def _unpacked(self):
        return gzip.GzipFile(fileobj=self.file) if self.file.peek(2)[:2] == GZIP else self.file

    def position(self) -> int:
        """How many bytes of the file were read."""
        try:
            return self.file.tell()
        except OSError:
            return 0

    def _read(self, size: int) -> bytes:
        """The next bytes, up to the end of a line."""
        data = b""
        try:
            data = self._some(size)
            if data and not data.endswith(b"\n") and not self.is_ended:
                data += self.stream.readline(LONGEST_LINE)
        except EOFError:
            self.is_ended = True
            if not self.may_be_cut:
                raise tool.Fault(f"{self.where}: it is cut: gzip's end isn't there") from None
        except zlib.error as error:
            raise tool.Fault(f"{self.where}: gzip can't read it: {error}") from None
        except OSError as error:
            raise tool.Fault(f"{self.where}: {error.strerror or f'gzip cannot read it: {error}'}") from None
        return data

    def _some(self, size: int) -> bytes:
        """The next bytes; of what gzip has packed and may be cut, piece by piece up to where it is cut."""
        if not self.may_be_cut or self.stream is self.file:
            return self.stream.read(size)
        data = b""
        while len(data) < size and not self.is_ended:
            try:
                piece = self.stream.read1(size - len(data))
            except EOFError:
                self.is_ended, piece = True, b""
            if not piece:
                break
            data += piece
        return data

    def _check_text(self) -> None:
        tool.check_text(self.head, self.path)
        if not self.head:
            raise tool.Fault(f"{self.where}: it is empty")

    def _text_format(self):
        """What reads its lines: as the user wants it, else as the first lines are."""
        self.stream = self._unpacked()
        self.head = self._read(BLOCK)
        self._check_text()
        lines = [line.rstrip("\r") for line in without_mark(self.head).decode("latin-1").split("\n")]
        found = (NAMES[self.wanted] if self.wanted else self._format(lines[:40]))()
        if isinstance(found, Terminal):
            found.begin(lines)
        return found

    def _format(self, lines):
        """The format that the first lines have."""
        for each in FORMATS:
            if each.fits(lines):
                return each
        raise tool.Fault(f"{self.where}: this is no log: neither {', '.join(each.title for each in FORMATS[:-1])} nor "
                         f"{FORMATS[-1].title}")

    def first_rows(self) -> Tuple[List[Row], List[int]]:
        """The first frames of the log, and their lines, as far as they can be read; it is read from the beginning after that."""
        found = [(row[0], row[2], row[3], number) for number, row in self._first_found() if isinstance(row, tuple)]
        found.sort(key=lambda each: each[0])
        return [row[:3] for row in found], [row[3] for row in found]

    def _first_found(self) -> Iterator[Tuple[int, Found]]:
        """What the first lines of the log have, as far as they can be read."""
        if not self.is_text:
            yield from enumerate(self.format.head, 1)
            return
        reader = copy.copy(self.format)
        for number, line in enumerate(without_mark(self.head).decode("latin-1").split("\n")[:-1], 1):
            try:
                yield number, reader.row(line.rstrip("\r"))
            except (Unreadable, ValueError, IndexError):
                pass

    def blocks(self) -> Iterator[Block]:
        """The frames of the part of the log that is looked at, block by block."""
        for block in self._line_blocks() if self.is_text else self._message_blocks():
            block = self._in_part(block)
            self.aside.update(each.kind for each in block.aside)
            self.frames += len(block.rows)
            if block.rows or block.aside:
                yield block
            if self.part.is_over:
                break
        if not self.frames:
            raise tool.Fault(f"{self.where}: there is no frame in it" + ("" if self.part.is_all() else " from there to there"))

    def _in_part(self, block: Block) -> Block:
        """What a block has of the part that is looked at."""
        if self.part.is_all() or self.start is None:
            return block
        first, last = self.part.cut(block.times, block.numbers, self.start)
        low, high = self.part.cut([each.time for each in block.aside], [each.line for each in block.aside], self.start)
        return Block(block.rows[first:last], block.numbers[first:last], block.aside[low:high], block.set_back)

    def _message_blocks(self) -> Iterator[Block]:
        """The blocks of what python-can reads."""
        found = self.format.head
        while found:
            yield from self.kept((self.line + place, each) for place, each in enumerate(found, 1))
            self.line += len(found)
            found = self.format.some()

    def _line_blocks(self) -> Iterator[Block]:
        """The blocks of a text."""
        data = without_mark(self.head)
        while data:
            whole = data[:data.rfind(b"\n") + 1]
            if len(whole) < len(data):
                self._end_cut(data)
            yield from self._blocks_of(whole)
            data = self._read(BLOCK) if len(whole) == len(data) else b""
        self.cut = self.line if self.is_ended and self.cut is None else self.cut

    def _end_cut(self, data: bytes) -> None:
        """The bytes don't end with a line: that is a fault unless it may be."""
        number, last = self.line + data.count(b"\n") + 1, data[data.rfind(b"\n") + 1:]
        if self.may_be_cut and len(last) < LONGEST_LINE:
            self.cut = number
            return
        why = "the last line is cut" if len(last) < LONGEST_LINE else "this line is too long for a log"
        raise tool.Fault(f"{self.where}:{number}: {why}")

    def _blocks_of(self, data: bytes) -> Iterable[Block]:
        """The blocks of whole lines: one, where the clock isn't set back among them."""
        text = data.decode("latin-1")
        rows = self.format.rows(text, self.channel) if self.channel is not None and not self.shift else None
        if rows is not None and (self.last is None or rows[0][0] >= self.last):
            first, self.line = self.line + 1, self.line + len(rows)
            self.start = rows[0][0] if self.start is None else self.start
            self.last = rows[-1][0]
            return [Block(rows, range(first, self.line + 1))]
        lines = text.split("\n")
        lines.pop()
        return self.kept(self._found(lines))

    def _found(self, lines: Sequence[str]) -> Iterator[Tuple[int, Found]]:
        """What lines have, each with its number."""
        for line in lines:
            self.line += 1
            try:
                yield self.line, self.format.row(line.rstrip("\r"))
            except (Unreadable, ValueError, IndexError) as why:
                since = None if self.last is None or self.start is None else self.last - self.start
                if self.part.is_behind(self.line, since):
                    return
                if not self.part.is_before(self.line):
                    what = why if isinstance(why, Unreadable) else f"this is no line of {self.format.title}"
                    shown = safe_text.readable(tool.shown(line[:60].encode("latin-1")))
                    raise tool.Fault(f"{self.where}:{self.line}: {what}: {shown}") from None


def opened(path: str) -> Tuple[io.BufferedReader, int]:
    """The bytes of a file or of the standard input, as a stream that can be peeked into, and how many they are."""
    file = tool.opened(path)
    size = opening.size_of(file) if path != "-" else 0
    return (file if isinstance(file, io.BufferedReader) else io.BufferedReader(cast(io.RawIOBase, file))), size


def without_mark(data: bytes) -> bytes:
    """Bytes without a byte order mark."""
    return data[3:] if data.startswith(b"\xef\xbb\xbf") else data
