"""What the editor asks about: a place in a file, with the script that it is of and what is known of that."""
from __future__ import annotations

from typing import TYPE_CHECKING, Any, Dict

from .. import tool
from .outline import Outline, Row
from .paths import path_of
from .positions import letters_to, span

if TYPE_CHECKING:
    from .server import Server
else:
    Server = Any

Params = Dict[str, Any]     # what the protocol says, as JSON has it


class Asked:
    """A file that is asked about.

    script   the script that it is of (scripts.OpenScript), None where none is open
    state    what is known of that (kept.State), None where that is nothing yet
    outline  what stands where in it
    """

    def __init__(self, server: Server, params: Params) -> None:
        self.server, self.params = server, params
        self.uri = params["textDocument"]["uri"]
        self.path = path_of(self.uri)
        self.documents = server.documents
        scripts = server.scripts_of(self.path)
        self.script = scripts[0] if scripts else None
        self.state = self.script.state if self.script else None

    @property
    def rows(self) -> list[str]:
        document = self.documents.of(self.path)
        return document.rows if document else self.documents.rows(self.path)

    @property
    def outline(self) -> Outline:
        return outline_of(self.server, self.script.path if self.script else self.path)

    def outlines(self) -> list[Outline]:
        """The outlines of all scripts that are made of the file."""
        return [outline_of(self.server, each.path) for each in self.server.scripts_of(self.path)]

    def range(self, row: int, start: int, end: int) -> Params:
        return span(self.rows[row], row, start, end)


class AskedPlace(Asked):
    """A place in a file that is asked about: its row, which letter of it, and that row as a command."""

    def __init__(self, server: Server, params: Params) -> None:
        super().__init__(server, params)
        place = params["position"]
        self.number = min(place["line"], len(self.rows) - 1)
        server.leave(self.path, self.number)
        self.text = self.rows[self.number]
        self.letter = letters_to(self.text, place["character"])
        self.row = Row(self.text)
        self.place = self.row.place_at(self.letter)

    def is_command(self) -> bool:
        """Whether the row is a command, and no line of a block and no comment."""
        return not self.row.name.startswith("#") and not self.outline.is_in_block(self.path, self.number)



def outline_of(server: Server, path: str) -> Outline:
    """The outline of a script, which is kept as long as its files are the same."""
    known = server.outlines.get(path)
    try:
        if known is None or not known.is_of(server.documents):
            known = server.outlines[path] = Outline(server.documents, path)
        return known
    except tool.Fault as fault:
        server.outlines.pop(path, None)
        raise tool.Fault(str(fault)) from None
