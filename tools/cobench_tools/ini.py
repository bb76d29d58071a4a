"""INI text, the form of data sheets and DCFs: sections of keys, each with its line (docs/rules/ini_text.md).

Names and keys are kept in lower case. All texts are such that `tool.put` gives the same bytes again.
"""
import re
from typing import Dict, Iterable, Optional, Tuple

from . import tool

ZERO = re.compile("-?(0[xX]0+|0+)")
BLANKS = b" \t\r"
BYTE_ORDER_MARK = b"\xef\xbb\xbf"


class Section(Dict[str, str]):
    """The values of a section by their keys; `lines` has the line of each key, `line` that of the first header."""

    def __init__(self, line: int) -> None:
        super().__init__()
        self.line = line
        self.lines: Dict[str, int] = {}

    def add(self, key: str, value: str, line: int) -> None:
        """A pair of the section; the first of two with equal keys counts."""
        if key not in self:
            self[key], self.lines[key] = value, line


def without_mark(line: bytes) -> bytes:
    """A first line without a byte order mark."""
    return line[len(BYTE_ORDER_MARK):] if line.startswith(BYTE_ORDER_MARK) else line


def header_of(line: bytes) -> Optional[str]:
    """The name in a header, in lower case, else None."""
    end = line.find(b"]")
    name = line[1:end].strip(BLANKS) if line.startswith(b"[") and end > 0 else b""
    return tool.shown(name.lower()) if name else None


def pair_of(line: bytes) -> Optional[Tuple[str, str]]:
    """The key, in lower case, and the value of a line, else None."""
    key, equals, value = line.partition(b"=")
    key = key.strip(BLANKS)
    return (tool.shown(key.lower()), tool.shown(value.strip(BLANKS))) if equals and key else None


def pair_in(line: bytes) -> Optional[Tuple[str, str]]:
    """The key, in lower case, and the value of a line that is no comment and no header, else None."""
    line = line.strip(BLANKS)
    return None if line.startswith(b";") or header_of(line) is not None else pair_of(line)


def sections_of(lines: Iterable[bytes]) -> Dict[str, Section]:
    """The sections of a text by their names."""
    sections: Dict[str, Section] = {}
    section: Optional[Section] = None
    for number, line in enumerate(lines, 1):
        line = without_mark(line) if number == 1 else line
        line = line.strip(BLANKS)
        if not line or line.startswith(b";"):
            continue
        name, pair = header_of(line), pair_of(line)
        if name is not None:
            section = sections.setdefault(name, Section(number))
        elif pair and section is not None:
            section.add(*pair, number)
    return sections


def unused_lines(lines: Iterable[bytes]) -> Dict[int, str]:
    """Why each line that isn't used is none that is, by number: the lines of which `diag` warns."""
    sections: Dict[str, Section] = {}
    section: Optional[Section] = None
    unused: Dict[int, str] = {}
    for number, line in enumerate(lines, 1):
        line = without_mark(line) if number == 1 else line
        line = line.strip(BLANKS)
        if not line or line.startswith(b";"):
            continue
        name, pair = header_of(line), pair_of(line)
        if name is not None:
            section = sections.setdefault(name, Section(number))
            continue
        why = why_unused(section, *pair) if pair else "it is no [section], key=value or ;comment"
        if why:
            unused[number] = why
        if pair and section is not None:
            section.add(*pair, number)
    return unused


def why_unused(section: Optional[Section], key: str, value: str) -> Optional[str]:
    """Why a pair isn't used, or None."""
    if section is None:
        return "it stands before the first [section]"
    if key in section:
        return f"line {section.lines[key]} gives the key first"
    return "CompactPDO isn't modelled" if key == "compactpdo" and not ZERO.fullmatch(value) else None
