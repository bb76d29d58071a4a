"""What is shown between the words: the names of objects, and, where the editor wants it, values in words."""
from __future__ import annotations

from .. import safe_text, values
from ..matrix import value_text
from . import entries
from .asked import Asked, Params, Server
from .paths import is_sheet
from .positions import position
from .symbols import rows_in

LONGEST = 40


def inlay_hints(server: Server, params: Params) -> list[Params]:
    """The hints of some rows of a script."""
    asked = Asked(server, params)
    if asked.state is None or is_sheet(asked.path):
        return []
    first, last = params["range"]["start"]["line"], params["range"]["end"]["line"]
    found = []
    for _, row, number in rows_in(asked.outline, asked.path):
        if first <= number <= last:
            found += hints_of(server, asked.state, row, number)
    return found


def hints_of(server, state, row, number):
    """The hints of a row."""
    node, (index, sub) = entries.node_of(row, state.project), entries.key_of(row)
    if node is None or index is None or sub is None or "SUB" not in row.kinds:
        return []
    entry = state.evidence.device(node).entries.get((index, sub))
    if entry is None:
        return []
    end = row.spans[row.kinds.index("SUB")][1]
    found = [hint(row, number, end, entry.name)] if entry.name else []
    if server.options["values"] and "TEXT" in row.kinds:
        text = row.rest_from(row.kinds.index("TEXT"))
        data = values.data_of(entry.kind, text, node) if entry.is_modelled else None
        found += [hint(row, number, row.spans[-1][1], f"= {value_text(entry.kind, data)}")] if data is not None else []
    return found


def hint(row, number, end, text):
    where = position(row.text, number, end)
    return {"position": where, "label": safe_text.shortened(text, LONGEST), "paddingLeft": True}
