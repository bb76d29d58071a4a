"""What every command stands on: its words, the files that it reads, what it prints, and that it can't go on."""
import argparse
import os
import re
import sys
import textwrap
from typing import BinaryIO, Callable, List, NamedTuple, NoReturn, Tuple, Union

from . import VERSION, opening, safe_text

# The statuses: all is well; something in the project is wrong; the command can't do its work.
DONE, FOUND, CANNOT = 0, 1, 2

# The bytes that a script has at most with all that it takes in, and any other file that isn't a log or replies.
LONGEST = 64 << 20

Paragraph = Tuple[bool, str]     # whether it stands as it is, and its text

# What a text has next to none of: control bytes other than tab, LF, vertical tab, form feed and CR.
CONTROL = re.compile(rb"[\x00-\x08\x0e-\x1f]")


class Fault(Exception):
    """Why a command can't do its work, in one line for the user."""


class Place(NamedTuple):
    """A line of a file; as text FILE:LINE, as editors read it."""

    path: str
    line: int

    def __str__(self) -> str:
        return f"{'<stdin>' if self.path == '-' else safe_text.readable(self.path)}:{self.line}"


def paragraphs(text: str) -> List[Paragraph]:
    """The parts of a text: paragraphs, whose lines can be broken anew, and lines that stand as they are, the indented ones."""
    parts: List[Paragraph] = []
    for line in text.strip("\n").split("\n"):
        is_fixed = line.startswith("  ") or not line
        if parts and not is_fixed and not parts[-1][0]:
            parts[-1] = False, f"{parts[-1][1]} {line}"
        else:
            parts.append((is_fixed, line))
    return parts


class Formatter(argparse.HelpFormatter):
    """Help as wide as the terminal."""

    def _fill_text(self, text: str, width: int, indent: str) -> str:
        return "\n".join(line if is_fixed else textwrap.fill(line, width, break_long_words=False, break_on_hyphens=False)
                         for is_fixed, line in paragraphs(text))


class Parser(argparse.ArgumentParser):
    """A reader of words whose faults are one line, and whose help is printed whole or not at all."""

    def __init__(self, prog: str, description: str) -> None:
        super().__init__(prog=prog, description=description, allow_abbrev=False,
                         formatter_class=Formatter)
        self.add_argument("--version", action="version", version=f"cobtool {VERSION}",
                          help="show the version and exit")

    def error(self, message: str) -> NoReturn:
        raise Fault(f"{message}; {self.prog} --help tells more")

    def _print_message(self, message: str, file: object = None) -> None:
        put(message)


def name_of(path: str) -> str:
    return "the standard input" if path == "-" else path


def opened(path: str) -> BinaryIO:
    """A file that is open for reading, or the standard input for `-`."""
    if path == "-" and sys.stdin is None:
        raise Fault("the standard input is closed")
    try:
        return sys.stdin.buffer if path == "-" else opening.open_file(path)
    except OSError as error:
        raise Fault(f"{name_of(path)}: {error.strerror}") from None
    except ValueError:
        raise Fault(f"{name_of(path)}: no file has such a name") from None


def read(path: str, most: int = LONGEST, judge: Callable[[bytes], None] = lambda front: None) -> bytes:
    """The bytes of a file, or of the standard input for `-`, which are no more than so many; `judge` sees the first ones."""
    file = opened(path)
    try:
        data = opening.bytes_of(file, most, judge)
    except OSError as error:
        raise Fault(f"{name_of(path)}: {error.strerror}") from None
    finally:
        if path != "-":
            file.close()
    if data is None:
        raise Fault(f"{name_of(path)}: it has over {most >> 20:,} MiB, and cobtool takes no more")
    return data


def check_one_input(*paths: str) -> None:
    """Whether at most one of these files is the standard input."""
    if paths.count("-") > 1:
        raise Fault("the standard input can be one file alone")


def is_utf_16(front: bytes) -> bool:
    """Whether these bytes are letters with a byte 00h behind each."""
    letters, zeros = front[0::2], front[1::2]
    return len(zeros) > 3 and zeros.count(0) * 4 > len(zeros) * 3 and not CONTROL.search(letters)


def check_text(text: bytes, path: str) -> None:
    """Whether the bytes of a file, or its first ones, are a text."""
    front = text[:4096]
    if text.startswith((b"\xff\xfe", b"\xfe\xff")) or is_utf_16(front[:200]):
        raise Fault(f"{name_of(path)}: this is UTF-16; save it as UTF-8 or as plain ASCII")
    if len(CONTROL.findall(front)) * 20 > len(front):
        raise Fault(f"{name_of(path)}: this is no text")


def read_text(path: str, most: int = LONGEST) -> bytes:
    """The bytes of a file that has to be a text."""
    return read(path, most, lambda front: check_text(front, path))


def shown(line: bytes) -> str:
    """Bytes as text, which UTF-8 with surrogateescape makes the same bytes again."""
    return line.decode("utf-8", "surrogateescape")


def put(text: Union[str, bytes]) -> None:
    """Writes all of a command's output at once: bytes as they are, texts for reading. Whoever reads it may stop reading.

    Where there is nothing to tell, nothing is written, however Python buffers its output.
    """
    data = text if isinstance(text, bytes) else safe_text.lines(text).encode()
    if sys.stdout is None:
        raise Fault("the standard output is closed")
    if not data:
        return
    try:
        sys.stdout.buffer.write(data)
        sys.stdout.buffer.flush()
    except BrokenPipeError:
        give_up_output()
    except OSError as error:
        give_up_output()
        raise Fault(f"the standard output: {error.strerror}") from None


def give_up_output() -> None:
    """Nothing more is written, also not what Python still holds and would write at the end."""
    os.dup2(os.open(os.devnull, os.O_WRONLY), sys.stdout.fileno())


def warn(line: object) -> None:
    """A line on the standard error, where there is one."""
    try:
        sys.stderr.buffer.write(f"{safe_text.readable(str(line))}\n".encode())
        sys.stderr.buffer.flush()
    except (AttributeError, OSError):
        pass


def say(line: object) -> None:
    """A line on the standard error, with the program's name in front."""
    warn(f"cobtool: {line}")
