"""Where in its line something is wrong: at the word that a diagnostic is about."""
from __future__ import annotations

from typing import Any

from .. import tool, wrong_word
from ..findings import Finding
from ..forms import FORMS, form_of
from ..hints import Refusal
from ..script import Command
from .positions import bare, span, words_in

# The words that a diagnostic is about, by its code; where the line has none of these, all of it.
OF_CODE = {
    "E01": ("INDEX", "SUB"), "E04": ("INDEX", "SUB"), "E16": ("INDEX", "SUB"), "E02": ("TEXT",), "E03": ("TEXT",),
    "W19": ("TEXT",), "W21": ("TEXT",), "E05": ("TPDO", "START", "INDEX"), "E06": ("TPDO",), "E07": ("NAME",),
    "E08": ("INDEX", "SUB"), "E09": ("INDEX", "SUB"), "E10": ("ID",), "E11": ("ID",), "E12": ("COB",), "E13": ("COB",),
    "E14": ("TYPE",), "E15": ("COB",), "W17": ("TYPE",), "W18": ("TYPE",), "W22": ("START",),
    "W23": ("ID", "NAME"), "W24": ("ID", "NAME"), "W25": ("power", "ON_OFF", "INDEX", "SUB"), "W27": ("TEXT",),
    "W28": ("RPDO", "MS"),
    "failed": ("ID", "NAME"), "unconfigured": ("ID", "NAME"), "no-source": ("NAME",), "no-sink": ("NAME",),
    "late-event": ("TIME",), "bit-rate": ("RATE",), "receive-time": ("MS",),
}

# Those of a write of a PDO that is outside the limits of its entry (E26), by the sub-index of a communication object.
OF_LIMIT = {"01": ("COB",), "02": ("TYPE",), "03": ("INHIBIT",), "05": ("EVENT", "MS"), "06": ("START",)}
OF_MAPPING = "INDEX", "SUB"


def kinds_of(words: list[str]) -> list[str]:
    """What each word of a command behind the first one is, by its form: TEXT is all the rest."""
    return form_of(words[0], words[1:]) if words and words[0] in FORMS else []


def of_row(row: str, number: int) -> dict[str, Any]:
    """The range of all words of a row."""
    words = words_in(row)
    return span(row, number, words[0][0], words[-1][1]) if words else span(row, number, 0, len(bare(row)))


def of_words(row: str, number: int, first: int, last: int) -> dict[str, Any]:
    """The range of some words of a row; what lies behind the last one is its end."""
    words = words_in(row)
    if not words or first >= len(words):
        end = words[-1][1] if words else 0
        return span(row, number, max(end - 1, 0), end)
    return span(row, number, words[first][0], words[min(last, len(words) - 1)][1])


def of_refusal(refusal: Refusal, row: str, number: int) -> dict[str, Any]:
    """The range of the word by which a command was refused; of a word that is missing, the last one."""
    if refusal.word is wrong_word.ALL:
        return of_row(row, number)
    return of_words(row, number, refusal.word, refusal.word)


def of_finding(finding: Finding, row: str, number: int) -> dict[str, Any]:
    """The range of the words that a finding is about."""
    words = [bare(row)[start:end] for start, end in words_in(row)]
    if not words or words[0] not in FORMS:
        return of_value(row, number)
    kinds, about = kinds_of(words), kinds_about(finding)
    wanted = [place for place, kind in enumerate(kinds, 1) if kind in about]
    if not wanted:
        return of_row(row, number)
    last = len(words) - 1 if kinds[wanted[-1] - 1] == "TEXT" else wanted[-1]
    return of_words(row, number, wanted[0], last)


def kinds_about(finding: Finding) -> tuple[str, ...]:
    """What the words are that a finding is about."""
    if finding.code != "E26":
        return OF_CODE.get(finding.code, ())
    _, _, _, index, sub = finding.words.split()
    return OF_MAPPING if int(index, 16) & 0x200 else OF_LIMIT.get(sub, ())


def of_value(row: str, number: int) -> dict[str, Any]:
    """The range of the value in a line of a data sheet, of all of it where it has none."""
    line = bare(row)
    key, equals, value = line.partition("=")
    if not equals or not value.strip():
        return of_row(row, number)
    start = len(key) + 1 + len(value) - len(value.lstrip())
    return span(row, number, start, len(line.rstrip()))


def of_fault(command: Command, row: str, number: int) -> dict[str, Any]:
    """The range of the file that a command can't take in."""
    words = words_in(row)
    place = next((place for place, (start, _) in enumerate(words) if row[start] == "<"), 0)
    text = tool.shown(command.text_from(place))
    return span(row, number, words[place][0], words[place][0] + len(text)) if words else of_row(row, number)
