"""Where names are made and used, over all scripts that take part: definition, references, rename, marks in a file."""
from __future__ import annotations

from .. import script as scripts
from .. import tool
from ..forms import NAME
from ..project import CONTROLLERS
from . import entries
from .asked import AskedPlace, Params, Server
from .outline import EVENT, NODE, NODE_NAME, number
from .paths import key_of
from .positions import span

LIMITS = {NODE: 127, EVENT: 10_000}
TEXT_MARK = 1


def location(server, path, row_text, row, start, end):
    return {"uri": server.documents.uri(path), "range": span(row_text, row, start, end)}


def located(server, outline, named):
    """Where a word stands, as the protocol has it."""
    return location(server, named.path, outline.lines(named.path).rows[named.row], named.row, named.start, named.end)


def named_at(asked):
    """What the word at a place names, None for nothing."""
    return asked.outline.named_at(asked.path, asked.number, asked.letter) if asked.is_command() else None


# Where it is made.

def definition(server: Server, params: Params) -> list[Params]:
    """Where what stands at a place is made: its command, a file, or the section of a data sheet."""
    asked = AskedPlace(server, params)
    if asked.place is None or not asked.is_command():
        return []
    kind = asked.row.kinds[asked.place]
    if kind == "FILE":
        return of_file(asked)
    named = named_at(asked)
    if named is None:
        return of_entry(asked) if kind in ("INDEX", "SUB", "TEXT") else []
    what = NODE if named.what == NODE_NAME else named.what
    name = str(number(asked.row.word("ID") or "")) if named.what == NODE_NAME else named.name
    made = [each for each in asked.outline.all_of(what, name) if each.makes]
    before = [each for each in made if (key_of(each.path), each.row) == (key_of(asked.path), asked.number)
              or key_of(each.path) != key_of(asked.path) or each.row < asked.number]
    return [located(server, asked.outline, each) for each in (before[-1:] or made[:1])]


def of_file(asked):
    """The file that a row takes in."""
    command = asked.outline.command_at(asked.path, asked.number)
    if command is None or not command.file:
        return []
    path = scripts.beside(command.path, command.file)
    return [location(asked.server, path, "", 0, 0, 0)]


def of_entry(asked):
    """The section of the data sheet that describes an entry."""
    if asked.state is None:
        return []
    node, (index, sub) = entries.node_of(asked.row, asked.state.project), entries.key_of(asked.row)
    entry = asked.state.evidence.device(node).entries.get((index, sub or 0)) if node is not None else None
    if entry is None:
        return []
    place = asked.state.evidence.sheet_place(node, entry.keys.line)
    lines = asked.documents.lines(place.path)
    row = lines.row_of(place.line)
    return [location(asked.server, place.path, lines.rows[row], row, 0, len(lines.rows[row].rstrip("\r\n")))]


# Where it is used.

def every(asked, named):
    """All words that name the same, each with the outline that has it, once."""
    seen, found = set(), []
    for outline in asked.outlines():
        for each in outline.all_of(named.what, named.name):
            place = key_of(each.path), each.row, each.start
            if place not in seen:
                seen.add(place)
                found.append((outline, each))
    return found


def references(server: Server, params: Params) -> list[Params]:
    asked = AskedPlace(server, params)
    named = named_at(asked)
    with_makers = params.get("context", {}).get("includeDeclaration", True)
    return [located(server, outline, each) for outline, each in (every(asked, named) if named else [])
            if with_makers or not each.makes]


def highlights(server: Server, params: Params) -> list[Params]:
    """The words of the same file that name the same."""
    asked = AskedPlace(server, params)
    named = named_at(asked)
    mine = [located(server, outline, each) for outline, each in (every(asked, named) if named else [])
            if key_of(each.path) == key_of(asked.path)]
    return [{"range": each["range"], "kind": TEXT_MARK} for each in mine]


# Another name.

def prepare_rename(server: Server, params: Params) -> Params | None:
    """The word that can have another name, None where none can."""
    asked = AskedPlace(server, params)
    named = named_at(asked)
    if named is None:
        return None
    return {"range": asked.range(named.row, named.start, named.end), "placeholder": asked.text[named.start:named.end]}


def rename(server: Server, params: Params) -> Params:
    """The edits by which something has another name in all scripts that are made of the file."""
    asked, new = AskedPlace(server, params), params["newName"]
    named = named_at(asked)
    if named is None:
        raise tool.Fault("nothing stands here that has a name")
    check_name(asked, named, new)
    edits: dict[str, list[Params]] = {}
    for outline, each in every(asked, named):
        found = located(server, outline, each)
        edits.setdefault(found["uri"], []).append({"range": found["range"], "newText": new})
    return {"changes": edits}


def check_name(asked, named, new):
    """Whether something can have a name."""
    if named.what in LIMITS:
        if number(new) is None or not 1 <= number(new) <= LIMITS[named.what]:
            whose = "a node" if named.what == NODE else "an event"
            raise tool.Fault(f"the number of {whose} is 1 to {LIMITS[named.what]:,}, not {new}")
        new = str(number(new))
    elif not NAME.fullmatch(new):
        raise tool.Fault(f"a name has 1 to 32 of A-Z a-z 0-9 _, not {new}")
    for outline in asked.outlines():
        if new != named.name and outline.all_of(named.what, new):
            raise tool.Fault(f"{named.what} {new} is there already")
        if named.what == NODE and new in first_words(outline, b"manager") and not may_be_controller(outline):
            raise tool.Fault(f"{new} is the manager's number")


def first_words(outline, name):
    """The first words behind the commands of a name."""
    return [word.decode("utf-8", "replace") for each in outline.commands if each.name == name for word in each.words[1:2]]


def may_be_controller(outline):
    """Whether a node of a script may have the manager's number."""
    versions = [number(word) or 1 for word in first_words(outline, b"version")]
    return bool(versions) and versions[-1] >= CONTROLLERS
