"""What stands in the rows of a data sheet: which object a row describes."""
import re

from .. import safe_text
from ..data_types import WHOLE
from ..device import Device, object_name
from . import entries
from .paths import key_of
from .positions import bare

SECTION = re.compile(r"([0-9a-f]{4})(?:sub([0-9a-f]{1,2})|value|name)?", re.IGNORECASE)
HEADER = re.compile(r"[ \t]*\[([^\]]*)\]")


def headers(rows):
    """The sections of a data sheet: the row and the name of each."""
    found = ((number, HEADER.match(row)) for number, row in enumerate(rows))
    return [(number, match.group(1).strip()) for number, match in found if match]


def section_at(rows, row):
    """The name of the section in which a row stands, "" for none."""
    return next((name for number, name in reversed(headers(rows[:row + 1]))), "")


def key_at(rows, row):
    """The entry that a row of a data sheet is about, None where it is about none."""
    found = SECTION.fullmatch(section_at(rows, row))
    if not found:
        return None
    compact = re.match(r"[ \t]*([0-9]{1,3})[ \t]*=", bare(rows[row]))
    if not found.group(2) and re.search("value|name", found.group(0), re.IGNORECASE) and compact:
        return int(found.group(1), 16), int(compact.group(1))
    return int(found.group(1), 16), int(found.group(2) or "0", 16)


def hover(asked):
    """The object that a row of a data sheet describes, and its value at the nodes of the script that takes it in."""
    key = key_at(asked.rows, asked.number)
    if key is None:
        return None
    nodes = [number for number in sorted(asked.state.project.nodes) if takes(asked, number)] if asked.state else []
    if nodes:
        return "\n\n".join(entries.described(asked.state.evidence, number, key) for number in nodes[:4])
    entry = Device([bare(row).encode("utf-8", "surrogatepass") for row in asked.rows], WHOLE).entries.get(key)
    return f"**{object_name(key)} {safe_text.markdown(entry.name)}**  \n{entries.type_text(entry)}" if entry else None


def takes(asked, node):
    """Whether a node's data sheet is the file that is asked about."""
    command = asked.state.evidence.origins.command("eds", asked.state.project.nodes[node][1])
    if command is None or command.file is None:
        return False
    return key_of(command.block_place(1).path) == key_of(asked.path)
