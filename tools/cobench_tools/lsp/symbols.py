"""The parts of a script, of all open scripts, and of a data sheet, as lists of symbols."""
from __future__ import annotations

from ..ini import pair_in
from ..safe_text import readable
from .asked import Asked, Params, Server, outline_of
from .outline import EVENT, MAKERS, MESSAGE, NODE, SHEET, Row
from .paths import is_sheet
from .positions import bare, position, span
from .sheet_places import headers

STRUCT, MODULE, EVENT_KIND, INTERFACE, FIELD = 23, 2, 24, 11, 8
KINDS = {SHEET: STRUCT, NODE: MODULE, MESSAGE: INTERFACE, EVENT: EVENT_KIND}
PARTS = {"source": "MESSAGE", "sink": "MESSAGE", "receive": "MESSAGE", "start": "MESSAGE", "param": "ID", "need": "ID"}
MOST = 2000


def document_symbols(server: Server, params: Params) -> list[Params]:
    """The parts of a file: sheets, nodes with their parameters, messages with their sources and sinks, events."""
    asked = Asked(server, params)
    if is_sheet(asked.path):
        return sections(asked.rows)
    found: list[Params] = []
    parts: dict[tuple[str | None, str], Params] = {}
    for command, row, number in rows_in(asked.outline, asked.path):
        last = asked.outline.end_of(command)
        whole = {"start": {"line": number, "character": 0}, "end": end_of(asked.rows[last], last)}
        symbol = symbol_of(row, number, whole)
        owner = parts.get((PARTS.get(row.name), row.words[1] if len(row.words) > 1 else ""))
        if row.name in MAKERS and symbol:
            found.append(symbol)
            parts["MESSAGE" if row.name == "message" else "ID", row.words[1]] = symbol
        elif owner and symbol:
            owner.setdefault("children", []).append(symbol)
    return found


def end_of(row, number):
    """The end of a row."""
    return position(row, number, len(bare(row)))


def rows_in(outline, path):
    """The commands that stand in a file, each with its row."""
    for command in outline.of_file(path):
        number = outline.row_of(command)
        row = Row(outline.lines(command.path).rows[number])
        if row.words and not row.name.startswith("#"):
            yield command, row, number


def symbol_of(row, number, whole):
    """The symbol of a command, None where it makes no part."""
    if len(row.words) < 2 or row.name not in MAKERS and row.name not in PARTS:
        return None
    name, detail = title_of(row)
    return {"name": name, "detail": detail, "kind": KINDS.get(MAKERS.get(row.name), FIELD), "range": whole,
            "selectionRange": span(row.text, number, *row.spans[1])}


def title_of(row):
    """What a symbol is called, and what stands behind it."""
    words = row.words
    if row.name == "node" and len(words) > 2:
        return f"{words[1]} {words[2]}", " ".join(words[3:])
    if row.name in MAKERS:
        return words[1] if row.name != "event" else f"event {words[1]}", " ".join(words[2:])
    return f"{row.name} {' '.join(words[2:4])}".rstrip(), " ".join(words[4:])


def sections(rows):
    """The sections of a data sheet, each with the name of its object."""
    starts = headers(rows)
    found = []
    for (row, name), (end, _) in zip(starts, starts[1:] + [(len(rows), "")]):
        pairs = filter(None, (pair_in(bare(each).encode("utf-8", "surrogatepass")) for each in rows[row + 1:end]))
        detail = next((value for key, value in pairs if key == "parametername"), "")
        found.append({"name": readable(name) or "?", "detail": readable(detail), "kind": STRUCT,
                      "range": {"start": {"line": row, "character": 0}, "end": end_of(rows[end - 1], end - 1)},
                      "selectionRange": span(rows[row], row, 0, len(bare(rows[row])))})
    return found


def workspace_symbols(server: Server, params: Params) -> list[Params]:
    """The parts of all open scripts whose names have some letters."""
    wanted: str = params.get("query", "").lower()
    found: list[Params] = []
    seen: set[tuple[str, int]] = set()
    for script in list(server.scripts.values()):
        if is_sheet(script.path):
            continue
        outline = outline_of(server, script.path)
        for named in outline.names:
            title = Row(outline.lines(named.path).rows[named.row])
            place = named.path, named.row
            if named.makes and named.what in KINDS and place not in seen and wanted in title_of(title)[0].lower():
                seen.add(place)
                where = {"uri": server.documents.uri(named.path),
                         "range": span(title.text, named.row, named.start, named.end)}
                found.append({"name": title_of(title)[0], "kind": KINDS[named.what], "containerName": named.what,
                              "location": where})
    return found[:MOST]
