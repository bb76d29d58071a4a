"""What each word of a script is, for colours: semantic tokens."""
from __future__ import annotations

from .asked import Asked, Params, Server
from .outline import Row
from .paths import is_sheet
from .positions import bare, units_of

TYPES = ["keyword", "comment", "string", "number", "struct", "class", "variable", "property", "event"]
OF_KINDS = {
    "COMMAND": "keyword", "set": "keyword", "power": "keyword", "nmt": "keyword", "NEED": "keyword",
    "ON_OFF": "keyword", "EDS": "struct", "MESSAGE": "variable", "ID": "class", "TO": "class", "K": "event",
    "INDEX": "property", "SUB": "property", "FILE": "string", "TEXT": "string", "MORE": None,
}
OF_NAMES = {"eds": "struct", "drop-eds": "struct", "node": "class", "message": "variable", "drop-message": "variable"}


def semantic_tokens(server: Server, params: Params) -> Params:
    """The tokens of a script: row and column beside the one before, length, type and no marks."""
    asked, data, before = Asked(server, params), [], (0, 0)
    if is_sheet(asked.path):
        return {"data": []}
    for number, start, length, kind in all_tokens(asked):
        column = number - before[0], start - before[1] if number == before[0] else start
        data += [*column, length, TYPES.index(kind), 0]
        before = number, start
    return {"data": data}


def all_tokens(asked):
    """The tokens in their order: row, column, length and type of each."""
    for command in asked.outline.of_file(asked.path):
        number = asked.outline.row_of(command)
        row = Row(asked.rows[number]) if number < len(asked.rows) else Row("")
        if row.name.startswith("#"):
            yield number, units_of(row.text[:row.spans[0][0]]), units_of(bare(row.text)[row.spans[0][0]:]), "comment"
        else:
            for (start, end), kind in zip(row.spans, row.kinds):
                found = OF_NAMES.get(row.name) if kind == "NAME" else OF_KINDS.get(kind, "number")
                if found:
                    yield number, units_of(row.text[:start]), units_of(row.text[start:end]), found
