"""What stands where in a script and those that it takes in: the names, and the words that say them."""
from __future__ import annotations

from typing import Iterator, NamedTuple

from ..forms import FORMS, form_of
from ..script import Command
from .documents import Documents
from .paths import key_of
from .positions import Lines, bare, rows_of, words_in
from .reading import Reading

class Named(NamedTuple):
    """A word that names something: what and its name, where it stands, and whether its command makes that."""

    what: str
    name: str
    path: str
    row: int
    start: int
    end: int
    makes: bool


SHEET, NODE, MESSAGE, EVENT, NODE_NAME = "eds", "node", "message", "event", "name"
MAKERS = {"eds": SHEET, "node": NODE, "message": MESSAGE, "event": EVENT}
NAMES = {"eds": SHEET, "drop-eds": SHEET, "message": MESSAGE, "drop-message": MESSAGE, "node": NODE_NAME}


class Row:
    """A row that is a command: its words, where each stands, and what each is by the form of the command."""

    def __init__(self, text: str) -> None:
        self.text, self.spans = text, words_in(text)
        self.words = [text[start:end] for start, end in self.spans]
        self.kinds = kinds_of(self.words)

    @property
    def name(self) -> str:
        return self.words[0] if self.words else ""

    def place_at(self, letter: int) -> int | None:
        """The place of the word at a letter, or that ends there, None where there is none; a TEXT is one word."""
        place = next((place for place, (start, end) in enumerate(self.spans) if start <= letter <= end), None)
        return place if place is None else min(place, len(self.kinds) - 1)

    def word(self, kind: str) -> str | None:
        """The first word of a kind, None where it isn't there."""
        return next((word for each, word in zip(self.kinds, self.words) if each == kind), None)

    def rest_from(self, place: int) -> str:
        """The text from a word on."""
        return bare(self.text)[self.spans[place][0]:].rstrip(" \t") if place < len(self.spans) else ""

    def named(self, place: int) -> tuple[str, str] | None:
        """What a word names, as what it is and its name, else None."""
        kind, word = self.kinds[place], self.words[place]
        if kind == "EDS" or kind == "NAME" and NAMES.get(self.name) == SHEET:
            return SHEET, word
        if kind == "MESSAGE" or kind == "NAME" and NAMES.get(self.name) == MESSAGE:
            return MESSAGE, word
        if kind == "NAME" and self.name == "node":
            return NODE_NAME, word
        if kind in ("ID", "TO") and self.name != "manager" and number(word):
            return NODE, str(number(word))
        return (EVENT, str(number(word))) if kind == "K" and number(word) is not None else None


def kinds_of(words: list[str]) -> list[str]:
    """What the words of a row are: COMMAND, those of its form, FILE or MORE."""
    if not words:
        return []
    if words[0].startswith("<"):
        return ["FILE"] * len(words)
    form = form_of(words[0], words[1:]) if words[0] in FORMS else []
    kinds = ["COMMAND"] + form
    if words[0] == "eds" and len(words) > 2 and words[2].startswith("<"):
        kinds = ["COMMAND", "NAME", "FILE"]
    last = "TEXT" if form[-1:] == ["TEXT"] else kinds[-1] if kinds[-1] == "FILE" else "MORE"
    return (kinds + [last] * len(words))[:max(len(words), 1)]


def number(word: str) -> int | None:
    """A decimal number of at most ten digits, else None."""
    return int(word) if word.isascii() and word.isdigit() and len(word) <= 10 else None


def hexadecimal(word: str) -> int | None:
    """A hexadecimal number of at most four digits, else None."""
    try:
        return int(word, 16) if len(word) <= 4 and word.isalnum() and word.isascii() else None
    except ValueError:
        return None


class Outline:
    """The commands of a script and those that it takes in, in their order, and the words that name something.

    commands  all commands, comments among them
    names     the words that name something (Named), in their order
    """

    def __init__(self, documents: Documents, root: str) -> None:
        reading = Reading(documents, with_sheets=False)
        reading.commands(root)
        self.commands = reading.all
        self.texts = [(path, documents.read_text(path)) for path in dict.fromkeys(reading.files)]
        self._lines = {path: Lines(rows_of(text.decode("utf-8", "replace"))) for path, text in self.texts}
        self.names = [named for command in self.commands if not command.is_comment() for named in self._of(command)]
        self._files: dict[str, list[Command]] = {}
        self._places: dict[tuple[str, int], list[Named]] = {}
        for path in self._lines:
            self._files.setdefault(key_of(path), [])
        keys = {path: key_of(path) for path in self._lines}
        for command in self.commands:
            self._files[keys[command.path]].append(command)
        for named in self.names:
            self._places.setdefault((keys[named.path], named.row), []).append(named)

    def is_of(self, documents: Documents) -> bool:
        """Whether the files are still those that it is made of."""
        return all(documents.read_text(path) is text for path, text in self.texts)

    def lines(self, path: str) -> Lines:
        return self._lines[path]

    def row_of(self, command: Command) -> int:
        """The row in which a command stands, from 0 on."""
        return self._lines[command.path].row_of(command.number)

    def end_of(self, command: Command) -> int:
        """The last row of a command with its block."""
        last = command.number + (len(command.block) if command.block and command.file is None else 0)
        return self._lines[command.path].row_of(last)

    def of_file(self, path: str) -> list[Command]:
        """The commands that stand in a file."""
        return self._files.get(key_of(path), [])

    def command_at(self, path: str, row: int) -> Command | None:
        """The command that stands in a row of a file, None where none does."""
        return next((each for each in self.of_file(path) if self.row_of(each) == row), None)

    def is_in_block(self, path: str, row: int) -> bool:
        """Whether a row of a file is one of a block."""
        blocks = (each for each in self.of_file(path) if each.block and each.file is None)
        return any(self.row_of(each) < row <= self.end_of(each) for each in blocks)

    def named_at(self, path: str, row: int, letter: int) -> Named | None:
        """What the word at a place names, None where it names nothing."""
        found = self._places.get((key_of(path), row), [])
        return next((each for each in found if each.start <= letter <= each.end), None)

    def all_of(self, what: str, name: str) -> list[Named]:
        """All words that name something."""
        return [each for each in self.names if (each.what, each.name) == (what, name)]

    def _of(self, command: Command) -> Iterator[Named]:
        row_number = self.row_of(command)
        row = Row(self._lines[command.path].rows[row_number])
        for place in range(1, min(len(row.kinds), len(row.words))):
            named = row.named(place)
            if named:
                makes = place == 1 and MAKERS.get(row.name) == named[0] or named[0] == NODE_NAME
                yield Named(*named, command.path, row_number, *row.spans[place], makes)
