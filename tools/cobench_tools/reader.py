"""Reads a script with all that it takes in: data sheets by `eds NAME <FILE`, other scripts by `<FILE`."""
import os
from typing import Callable, List, Optional, TypeVar

from . import script, tool, within
from .likely import file_hint

ReadText = Callable[[str], bytes]
Read = TypeVar("Read")      # commands, or a text

MOST_SCRIPTS, MOST_DEEP = 10_000, 20


def fill_block(command: script.Command, first: str, read_text: ReadText = tool.read_text) -> None:
    """Reads the FILE of an `eds NAME <FILE` into its block; tells where the block of another is cut.

    first  the script that the user named
    """
    if command.lacks:
        there = len(command.block or ())
        raise tool.Fault(f"{command.place}: {tool.shown(command.line)}: the script ends after {there} of the "
                         f"{there + command.lacks} lines")
    if command.file is None or command.block is not None:
        return
    if not command.file:
        raise tool.Fault(f"{command.place}: a file's name is missing behind <")
    path = script.beside(command.path, command.file)
    check_place(command, path, first)
    try:
        command.block = script.eds_lines(command.words[1], path, read_text)
    except tool.Fault as fault:
        raise tool.Fault(f"{command.place}: {fault}{file_hint(path, command.file)}") from None


def check_place(command: script.Command, path: str, first: str) -> None:
    """Whether a command may take a file in; `first` is the script that takes all others in."""
    why = "no file has such a name" if "\0" in path else within.rule.why_not(path, first)
    if why:
        raise tool.Fault(f"{command.place}: {path}: {why}")


def identity(path: str) -> str:
    """What is the same for all names of a file; the standard input is none."""
    return path if path == "-" or "\0" in path else os.path.realpath(path)


class Reader:
    """Reads a script and all that it takes in, at most 64 MiB.

    with_sheets  whether the data sheets are read too
    read_text    reads a file
    sheets       the commands that took in a data sheet, in their order
    raw          the commands of the script as it stands, comments among them
    first        the script that takes all others in
    open         the scripts that are being read, each taken in by the one before it
    """

    def __init__(self, with_sheets: bool = True, read_text: ReadText = tool.read_text) -> None:
        self.with_sheets, self.read_text = with_sheets, read_text
        self.sheets: List[script.Command] = []
        self.open: List[str] = []
        self.raw: Optional[List[script.Command]] = None
        self.first = ""
        self.size = self.taken = 0

    def text_of(self, path: str) -> bytes:
        """The text of a script."""
        self.first = self.first or path
        text = self.read_text(path)
        fault = script.why_no_lines(text)
        if fault:
            raise tool.Fault(f"{tool.name_of(path)}: {fault}")
        self.count(len(text), path)
        return text

    def count(self, size: int, path: str) -> None:
        """Counts the bytes that were read."""
        self.size += size
        if self.size > tool.LONGEST:
            raise tool.Fault(f"{tool.name_of(path)}: with what is taken in before it that is over "
                             f"{tool.LONGEST >> 20} MiB, and cobench takes no more")

    def commands(self, path: str) -> List[script.Command]:
        """The commands of a script and of those that it takes in, in their order, without comments."""
        found, raw = [], script.commands_of(self.text_of(path), path)
        self.raw = self.raw or raw
        for command in raw:
            if command.takes_script():
                found += self.inside(command, self.commands)
            elif not self.is_comment(command):
                self.fill(command)
                found.append(command)
        return found

    def expanded(self, path: str) -> bytes:
        """A script as the program takes it; its last line has its end."""
        text, place, found = self.text_of(path), 0, []
        for command, start, end in script.specials(text, path):
            found.append(text[place:start])
            place = end
            if command.takes_script():
                found.append(self.inside(command, self.expanded))
            elif not self.is_comment(command):
                self.fill(command)
                found.append(command.text() if command.file is not None else text[start:end])
        return ended(b"".join(found) + text[place:])

    def is_comment(self, command: script.Command) -> bool:
        """Whether a command is a comment, in which no line can be hidden."""
        if command.is_comment() and b"\r" in command.line:
            raise tool.Fault(f"{command.place}: a CR stands inside this comment; lines end by LF or CR LF")
        return command.is_comment()

    def fill(self, command: script.Command) -> None:
        """Gives a command its block, if it has one."""
        if self.with_sheets:
            fill_block(command, self.first, self.read_text)
            if command.file is not None:
                self.count(sum(map(len, command.block or ())), script.beside(command.path, command.file))
                self.sheets.append(command)

    def inside(self, command: script.Command, read: Callable[[str], Read]) -> Read:
        """What the script gives that a command takes in."""
        path, file = script.beside(command.path, command.file or ""), command.file or ""
        self.check_inside(command, path)
        check_place(command, path, self.first)
        self.open.append(identity(command.path))
        try:
            return read(path)
        except tool.Fault as fault:
            raise tool.Fault(f"{command.place}: {fault}{file_hint(path, file)}") from None
        finally:
            self.open.pop()

    def check_inside(self, command: script.Command, path: str) -> None:
        """Whether a command can take a script in."""
        self.taken += 1
        if not command.file:
            raise tool.Fault(f"{command.place}: a file's name is missing behind <")
        if identity(path) in self.open + [identity(command.path)]:
            raise tool.Fault(f"{command.place}: {path} takes itself in")
        if self.taken > MOST_SCRIPTS:
            raise tool.Fault(f"{command.place}: over {MOST_SCRIPTS:,} scripts are taken in")
        if len(self.open) == MOST_DEEP:
            raise tool.Fault(f"{command.place}: over {MOST_DEEP} scripts are taken in, one in the other")


def ended(text: bytes) -> bytes:
    """A text whose last line has its end."""
    return text if text.endswith(b"\n") or not text else text + b"\n"


def read(path: str, with_sheets: bool = True) -> List[script.Command]:
    """The commands of a script, with the files that it takes in, and without comments."""
    return Reader(with_sheets).commands(path)
