"""Places in a text as the protocol counts them: rows from 0 on, and columns in units of UTF-16."""
from __future__ import annotations

import bisect
import re
from typing import Any

END = re.compile("\r\n|\n|\r")
WORD = re.compile("[^ \t]+")


def rows_of(text: str) -> list[str]:
    """The rows of a text, each with its end but the last, which has none."""
    if "\r" not in text:
        rows = text.split("\n")
        return [f"{row}\n" for row in rows[:-1]] + rows[-1:]
    ends = [found.end() for found in END.finditer(text)]
    return [text[start:end] for start, end in zip([0] + ends, ends + [len(text)])]


def bare(row: str) -> str:
    """A row without its end."""
    return row.rstrip("\r\n")


def units_of(text: str) -> int:
    """The columns that a text takes: those beyond FFFFh take two."""
    return len(text) if text.isascii() else sum(2 if ord(letter) > 0xFFFF else 1 for letter in text)


def letters_to(row: str, column: int) -> int:
    """How many letters of a row stand before a column; behind its end it is the end."""
    line = bare(row)
    if line.isascii():
        return min(column, len(line))
    units = 0
    for place, letter in enumerate(line):
        units += 2 if ord(letter) > 0xFFFF else 1
        if units > column:
            return place
    return len(line)


def position(row: str, line: int, place: int) -> dict[str, int]:
    """The position of a letter of a row, which is the one of a number."""
    return {"line": line, "character": units_of(row[:place])}


def span(row: str, line: int, start: int, end: int) -> dict[str, Any]:
    """The range of some letters of a row."""
    return {"start": position(row, line, start), "end": position(row, line, end)}


def words_in(row: str) -> list[tuple[int, int]]:
    """The words of a row: where each starts and ends."""
    return [found.span() for found in WORD.finditer(bare(row))]


class Lines:
    """The rows of a text by the numbers of cobench's lines, which end by LF alone."""

    def __init__(self, rows: list[str]) -> None:
        self.rows = rows
        ends = [place for place, row in enumerate(rows) if row.endswith("\n")]
        self._starts = None if len(ends) == len(rows) - 1 else [0] + [place + 1 for place in ends]

    def row_of(self, number: int) -> int:
        """The row in which a line begins, from 0 on; the last one for a line that isn't there."""
        place = number - 1 if self._starts is None else self._starts[min(number, len(self._starts)) - 1]
        return max(0, min(place, len(self.rows) - 1))

    def number_of(self, row: int) -> int:
        """The number of the line in which a row stands."""
        return row + 1 if self._starts is None else bisect.bisect_right(self._starts, row)
