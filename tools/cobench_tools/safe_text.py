"""Foreign text in what is printed: letters to read and nothing that steers, in the way of each kind of output.

Foreign is all that stands in a file, and the file's name: somebody else may have written it. No output has a control
of it, a mark that turns the direction of what follows, an end of a line, or half of a character.
"""
import html
import json
import re
from typing import Any

# Controls (C0, DEL, C1), ends of lines, marks of direction, hidden tags, halves of characters, and no characters.
STEERS = re.compile("[\x00-\x1f\x7f-\x9f\u061c\u200e\u200f\u2028-\u202e\u2066-\u206f\ufff9-\ufffb\ufffe\uffff"
                    "\ud800-\udfff\U000e0000-\U000e007f]")
NO_BYTE = re.compile("[\ud800-\udc7f\udd00-\udfff]")     # halves that `tool.shown` makes of no byte
HIDDEN = "?"

NUMBER = re.compile(r"[-+]?[0-9][0-9,.]*([eE][-+]?[0-9]+)?( ?(us|ms|s|%|bits?|kbit/s))?")
FORMULA = ("=", "+", "-", "@", "\uff1d", "\uff0b", "\uff0d", "\uff20")
NOTHING = "-"                                            # what a cell has that has nothing
MARKDOWN = re.compile(r"([\\|<>*_`~\[\]!&])")


def decoded(data: bytes) -> str:
    """Bytes as text: where they are no UTF-8 those of Windows' Western code page, or of Latin-1."""
    for encoding in ("utf-8", "cp1252"):
        try:
            return data.decode(encoding)
        except UnicodeDecodeError:
            pass
    return data.decode("latin-1")


def readable(text: str) -> str:
    """A text of `tool.shown` in one line for reading: a tab is a blank, and what steers shows as a question mark."""
    if text.isprintable():
        return text
    data = NO_BYTE.sub(HIDDEN, text).encode("utf-8", "surrogateescape")
    return STEERS.sub(HIDDEN, decoded(data).replace("\t", " "))


def shortened(text: str, most: int = 60) -> str:
    """A readable text that isn't too long for a line of a report."""
    found = readable(text)
    return found if len(found) <= most else found[:most - 2] + ".."


def lines(text: str) -> str:
    """A text of many lines for the terminal, which keeps its tabs and its ends of lines by LF."""
    if text.replace("\n", "").isprintable():
        return text
    return "\n".join("\t".join(map(readable, line.split("\t"))) for line in text.split("\n"))


def markup(text: str) -> str:
    """A text in HTML, SVG or XML, in an attribute too."""
    return html.escape(readable(text))


def markdown(text: str) -> str:
    """A text in Markdown, in which nothing of it is a mark, a link, a picture or an entity."""
    return MARKDOWN.sub(r"\\\1", readable(text))


def csv_cell(text: str) -> str:
    """A cell of a CSV, which no spreadsheet takes for a formula: an apostrophe makes it a text."""
    cell = readable(text)
    is_formula = cell.startswith(FORMULA) and cell != NOTHING and not NUMBER.fullmatch(cell)
    return f"'{cell}" if is_formula else cell


def dbc_text(text: str) -> str:
    """A text of a DBC, between quotation marks."""
    return '"' + re.sub(r'["\\]', "'", readable(text)) + '"'


def harmless(value: Any) -> Any:
    """A value that becomes JSON, with all its texts readable."""
    if isinstance(value, str):
        return readable(value)
    if isinstance(value, dict):
        return {harmless(key): harmless(each) for key, each in value.items()}
    return [harmless(each) for each in value] if isinstance(value, (list, tuple)) else value


def as_json(value: Any) -> str:
    """A value as JSON for programs."""
    return json.dumps(harmless(value), indent=1) + "\n"
