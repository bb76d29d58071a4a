"""The files as the editor has them: what is open there, and behind it what stands on the disk."""
from __future__ import annotations

import os
import threading
from typing import Any, Iterable

from .. import tool
from ..live.watch import stamp_of
from .paths import key_of, path_of, uri_of
from .positions import END, Lines, bare, letters_to, rows_of


class Document:
    """A file that is open in the editor.

    version  which of its states this is
    rows     its rows with their ends
    edited   the row in which the last changes were, None once it was left, and `before` what that had before them
    is_long  whether it is longer than cobtool takes: it has no rows then
    """

    def __init__(self, uri: str, version: int | None, text: str) -> None:
        self.uri, self.path, self.version = uri, path_of(uri), version
        self.edited: int | None = None
        self.before, self._text = "", b""
        self._take(text)

    def _take(self, text: str) -> None:
        """Takes the text of all of it."""
        self.is_long = len(text) > tool.LONGEST
        self.rows, self.edited = rows_of("" if self.is_long else text), None

    def change(self, changes: list[dict[str, Any]], version: int | None) -> None:
        """Takes changes in their order."""
        self.version, self._text = version, b""
        for change in changes:
            if "range" not in change:
                self._take(change["text"])
            elif not self.is_long:
                self._replace(change["range"]["start"], change["range"]["end"], change["text"])

    def _replace(self, start: dict[str, int], end: dict[str, int], text: str) -> None:
        first, last = min(start["line"], len(self.rows) - 1), min(end["line"], len(self.rows) - 1)
        before, behind = self.rows[first][:self._place(start, first)], self.rows[last][self._place(end, last):]
        old = bare(self.rows[first])
        if first and self.rows[first - 1].endswith("\r"):
            first, before = first - 1, self.rows[first - 1] + before
        made = rows_of(before + text + behind)
        self.rows[first:last + 1] = made if last == len(self.rows) - 1 else made[:-1]
        self._note(first, old, first == last and not END.search(text))

    def _place(self, place: dict[str, int], row: int) -> int:
        """How many letters of a row stand before a place; one behind the last row is at its end."""
        return letters_to(self.rows[row], place["character"]) if place["line"] < len(self.rows) else len(self.rows[row])

    def _note(self, row: int, old: str, is_one_row: bool) -> None:
        """Keeps which row is being edited, and what it was before."""
        if not is_one_row:
            self.leave()
        elif self.edited != row:
            self.edited, self.before = row, old

    def leave(self) -> None:
        """The row that was edited is left: it counts as it stands."""
        self.edited = None

    def text(self) -> bytes:
        """Its bytes."""
        if not self._text:
            self._text = "".join(self.rows).encode("utf-8", "surrogatepass")
        return self._text


class Documents:
    """What is open, by the identities of the files, and the files that were read."""

    def __init__(self) -> None:
        self.lock = threading.RLock()
        self.opened: dict[str, Document] = {}
        self._read: dict[str, tuple[Any, bytes]] = {}

    def open(self, uri: str, version: int | None, text: str) -> Document:
        document = Document(uri, version, text)
        with self.lock:
            self.opened[key_of(document.path)] = document
        return document

    def close(self, uri: str) -> None:
        with self.lock:
            self.opened.pop(key_of(path_of(uri)), None)

    def of(self, path: str) -> Document | None:
        """The open document of a file, None where it isn't open."""
        return self.opened.get(key_of(path))

    def uri(self, path: str) -> str:
        """The URI of a file: as the editor says it where it is open."""
        document = self.of(path)
        return document.uri if document else uri_of(path)

    def read_text(self, path: str) -> bytes:
        """The bytes of a file that has to be a text: the same as long as it isn't changed."""
        with self.lock:
            document = self.of(path)
            text = document.text() if document else None
        if document is None or text is None:
            return self._from_disk(path)
        if document.is_long or len(text) > tool.LONGEST:
            raise tool.Fault(f"{path}: it has over {tool.LONGEST >> 20:,} MiB, and cobtool takes no more")
        tool.check_text(text, path)
        return text

    def _from_disk(self, path: str) -> bytes:
        stamp, known = stamp_of(path), self._read.pop(path, None)
        text = known[1] if known and stamp and known[0] == stamp else tool.read_text(path)
        self._read[path] = stamp, text
        return text

    def rows(self, path: str) -> list[str]:
        """The rows of a file, none where it can't be read."""
        with self.lock:
            document = self.of(path)
            if document:
                return list(document.rows)
        try:
            return rows_of(self._from_disk(path).decode("utf-8", "replace"))
        except tool.Fault:
            return [""]

    def lines(self, path: str) -> Lines:
        """The rows of a file by the numbers of its lines."""
        return Lines(self.rows(path))

    def changed(self, paths: Iterable[str]) -> bool:
        """Whether one of these files, which isn't open, is other than it was when it was read."""
        return any(not self.of(path) and stamp_of(path) != self._read.get(path, (None,))[0] for path in paths)


def short(text: str, folder: str) -> str:
    """A text without the folder in front of the names of files."""
    return text.replace(os.path.join(folder, ""), "") if folder else text
