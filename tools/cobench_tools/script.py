"""Scripts: commands with their blocks, as cobench reads them, and what `cobtool expand` adds to them.

A script that is to be expanded may also have comments (lines whose first word begins with `#`), `eds NAME <FILE`,
which takes in a data sheet, and `<FILE`, which takes in the commands of another script. All of these stand outside
blocks alone. FILE is looked for from the folder of the script that names it, and ends at a blank with a `#` behind.
"""
import functools
import os
import re
from typing import Callable, Iterator, List, Optional, Sequence, Tuple

from . import tool

LONGEST_LINE = 4096
MOST_LINES = 65536
LONGEST_TEXT = 1 << 20
MOST_SHEETS = 64
MOST_KNOWN = 1 << 14     # so many lines are known at most

# More commands than a network of all that cobench takes has; each takes memory here.
MOST_COMMANDS = 4_000_000

WORD = re.compile(rb"[^ \t]+")
SPECIAL = re.compile(rb"^[ \t]*(?:#|<|eds[ \t])", re.MULTILINE)
DOS_END = b"\x1a"


class Command:
    """A line that isn't blank, with the lines of its block.

    path     the script in which it stands
    number   its line there, from 1
    line     its bytes, without the end
    block    the lines of its block without their ends, or None where it takes no block
    lacks    how many lines of the block come after the end of the script
    file     FILE in `eds NAME <FILE` and in `<FILE`, else None
    """

    __slots__ = ("path", "number", "line", "block", "lacks", "file")

    def __init__(self, path: str, number: int, line: bytes) -> None:
        self.path, self.number, self.line = path, number, line
        self.block: Optional[List[bytes]] = None
        self.lacks, self.file = 0, None  # type: int, Optional[str]

    @property
    def words(self) -> List[bytes]:
        return list(words_in(self.line))

    @property
    def name(self) -> bytes:
        """Its first word."""
        return words_in(self.line)[0]

    @property
    def shown_words(self) -> Tuple[str, ...]:
        """Its words as texts."""
        return shown_words_in(self.line)

    @property
    def place(self) -> tool.Place:
        """FILE:LINE."""
        return tool.Place(self.path, self.number)

    def block_place(self, number: int) -> tool.Place:
        """FILE:LINE of a line of its block, counted from 1."""
        if self.file is not None:
            return tool.Place(beside(self.path, self.file), number)
        return tool.Place(self.path, self.number + number)

    def is_comment(self) -> bool:
        return self.line.lstrip(b" \t").startswith(b"#")

    def takes_script(self) -> bool:
        """Whether it takes in the commands of another script."""
        return self.line.lstrip(b" \t").startswith(b"<")

    def text(self) -> bytes:
        """The command and its block as the program takes them."""
        if self.file is not None and self.block is not None:
            return block_of(self.words[1], self.block)
        return b"".join(line + b"\n" for line in [self.line] + (self.block or []))

    def text_from(self, place: int) -> bytes:
        """The rest of the line from the word at a place on, without blanks at its end."""
        return text_in(self.line, place)


@functools.lru_cache(maxsize=MOST_KNOWN)
def words_in(line: bytes) -> Tuple[bytes, ...]:
    """The words of a line, read once as long as it is known; that of a line of too many blanks is empty."""
    return tuple(WORD.findall(line)) or (b"",)


@functools.lru_cache(maxsize=MOST_KNOWN)
def shown_words_in(line: bytes) -> Tuple[str, ...]:
    """The words of a line as texts."""
    return tuple(map(tool.shown, words_in(line)))


@functools.lru_cache(maxsize=MOST_KNOWN)
def text_in(line: bytes, place: int) -> bytes:
    """The rest of a line from the word at a place on, without blanks at its end."""
    rest = re.match(rb"[ \t]*(?:[^ \t]+[ \t]+){%d}(.*)" % place, line, re.DOTALL)
    return rest.group(1).rstrip(b" \t") if rest else b""


def beside(path: str, file: str) -> str:
    """A file that a script names, looked for from the script's folder; never the standard input."""
    folder = "" if path == "-" else os.path.dirname(path)
    return os.path.join(folder or ("." if file == "-" else ""), file)


def lines_of(text: bytes) -> List[bytes]:
    """The lines of a text with the CRs at their ends, as the program counts them: the last may have no LF."""
    lines = text.split(b"\n")
    if not lines[-1]:
        lines.pop()
    return lines


def is_blank(line: bytes) -> bool:
    """Whether the program skips a line."""
    return not line.strip(b" \t") and len(line) <= LONGEST_LINE


def number_of(word: bytes) -> Optional[int]:
    """What a decimal number of 1 to 10 digits is, else None."""
    return int(word) if re.fullmatch(rb"[0-9]{1,10}", word) else None


def lines_wanted(words: Sequence[bytes]) -> Optional[int]:
    """How many lines the block of an `eds NAME LINES` with these words has, else None."""
    number = number_of(words[2]) if len(words) == 3 else None
    return number if number is not None and number <= MOST_LINES else None


def file_behind(text: bytes) -> str:
    """FILE in `<FILE`, without a comment behind it."""
    return tool.shown(re.split(rb"[ \t]#", text[1:], 1)[0].strip(b" \t"))


def block_from(text: bytes, start: int, wanted: int) -> Tuple[List[bytes], int]:
    """The lines of a block that begins there, at most as many as are wanted, and where they end."""
    end = start
    for _ in range(wanted):
        if end == len(text):
            break
        end = text.find(b"\n", end) + 1 or len(text)
    return [line.rstrip(b"\r") for line in lines_of(text[start:end])], end


def special_from(text: bytes, start: int, path: str, number: int) -> Tuple[Command, int]:
    """The command in the line that begins there, with its block or FILE, and where its lines end."""
    end = text.find(b"\n", start) + 1 or len(text)
    command = Command(path, number, text[start:end].rstrip(b"\n").rstrip(b"\r"))
    words = command.words
    if command.takes_script():
        command.file = file_behind(command.text_from(0))
    elif words[0] == b"eds" and len(words) > 2 and words[2].startswith(b"<"):
        command.file = file_behind(command.text_from(2))
    else:
        wanted = lines_wanted(words) if words[0] == b"eds" else None
        if wanted is not None:
            command.block, end = block_from(text, end, wanted)
            command.lacks = wanted - len(command.block)
    return command, end


def specials(text: bytes, path: str) -> Iterator[Tuple[Command, int, int]]:
    """The commands that are comments, take a file in or have a block: each with where its lines start and end."""
    place, number = 0, 1
    found = SPECIAL.search(text)
    while found:
        start = found.start()
        number += text.count(b"\n", place, start)
        command, place = special_from(text, start, path, number)
        yield command, start, place
        number += text.count(b"\n", start, place)
        found = SPECIAL.search(text, place)


def plain_commands(text: bytes, path: str, number: int) -> List[Command]:
    """The commands of lines without anything special, the first of which has this number."""
    if text.count(b"\n") > MOST_COMMANDS:
        raise tool.Fault(f"{tool.name_of(path)}: it has over {MOST_COMMANDS:,} commands, and cobtool takes no more")
    lines = ((each, line.rstrip(b"\r")) for each, line in enumerate(lines_of(text), number))
    return [Command(path, each, line) for each, line in lines if not is_blank(line)]


def commands_of(text: bytes, path: str = "-") -> List[Command]:
    """The commands of a script as it stands, comments among them."""
    commands, place, number = [], 0, 1
    for command, start, end in specials(text, path):
        commands += plain_commands(text[place:start], path, number)
        commands.append(command)
        place, number = end, command.number + text.count(b"\n", start, end)
    return commands + plain_commands(text[place:], path, number)


def why_no_eds(text: bytes) -> Optional[str]:
    """Why the program would refuse an `eds` block of this text, or None."""
    count = text.count(b"\n") + (not text.endswith(b"\n") and text != b"")
    if count > MOST_LINES:
        return f"it has {count:,} lines, and a block has at most {MOST_LINES:,}"
    lines = [line.rstrip(b"\r") for line in lines_of(text)]
    for number, line in enumerate(lines, 1):
        if len(line) > LONGEST_LINE:
            return f"line {number} has {len(line):,} bytes, and a line has at most {LONGEST_LINE:,}"
    if sum(len(line) + 1 for line in lines) > LONGEST_TEXT:
        return f"it has over {LONGEST_TEXT:,} bytes"
    for number, line in enumerate(lines, 1):
        bad = re.search(rb"[\x00-\x08\x0b\x0c\x0e-\x1f]", line)
        if bad:
            return f"line {number} has a byte {bad.group()[0]:02X}h, and an EDS has none"
    return None


def why_no_lines(text: bytes) -> Optional[str]:
    """Why a text has no lines, or None: they end by CR alone."""
    ends = text.rstrip(b"\r")
    return "its lines end by CR alone; save it with LF or CR LF" if b"\r" in ends and b"\n" not in ends else None


def eds_lines(name: bytes, path: str, read_text: Callable[[str], bytes] = tool.read_text) -> List[bytes]:
    """The lines of a file that an `eds` block can have, without the CRs at their ends.

    The byte 1Ah by which DOS ended texts is left out where it stands last.
    """
    if not re.fullmatch(rb"[A-Za-z0-9_]{1,32}", name):
        raise tool.Fault(f"{tool.shown(name)}: a name has 1 to 32 of A-Z a-z 0-9 _")
    fault, lines = lines_of_eds(read_text(path))
    if fault:
        raise tool.Fault(f"{tool.name_of(path)}: {fault}")
    return lines


@functools.lru_cache(maxsize=MOST_SHEETS)
def lines_of_eds(text: bytes) -> Tuple[Optional[str], List[bytes]]:
    """Why a text is no data sheet, or None, and its lines, which nobody changes: the same each time."""
    text = text.rstrip(DOS_END)
    return why_no_lines(text) or why_no_eds(text), [line.rstrip(b"\r") for line in lines_of(text)]


def block_of(name: bytes, lines: Sequence[bytes]) -> bytes:
    """The `eds` command of these lines."""
    return b"".join([b"eds %s %d\n" % (name, len(lines))] + [line + b"\n" for line in lines])
