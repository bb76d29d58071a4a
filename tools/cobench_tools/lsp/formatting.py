"""A script with its words in columns: what a command does is the same, and comments stay where they stand."""
from __future__ import annotations

from .asked import Asked, Params, Server
from .outline import Row
from .paths import is_sheet
from .positions import bare, span


def formatting(server: Server, params: Params) -> list[Params]:
    """The edits by which rows of the same command, one below the other, have their words in columns."""
    asked = Asked(server, params)
    if is_sheet(asked.path):
        return []
    runs: list[list[tuple[int, Row]]] = [[]]
    for command in asked.outline.of_file(asked.path):
        number = asked.outline.row_of(command)
        row = Row(asked.rows[number])
        if runs[-1] and (row.name != runs[-1][-1][1].name or number != runs[-1][-1][0] + 1):
            runs.append([])
        if can_be_aligned(command, row):
            runs[-1].append((number, row))
    return [edit for run in runs if run for edit in aligned(run)]


def can_be_aligned(command, row):
    """Whether a row is a command of words alone, and no comment, block or file."""
    is_plain = command.block is None and command.file is None and not command.is_comment()
    return is_plain and bool(row.words) and "MORE" not in row.kinds


def aligned(run):
    """The edits of a run of rows."""
    parts = [parts_of(row) for _, row in run]
    widths = [max((len(each[place]) for each in parts if place < len(each)), default=0)
              for place in range(max(map(len, parts)))]
    edits = []
    for (number, row), words in zip(run, parts):
        text = " ".join(word.ljust(width) for word, width in zip(words, widths)).rstrip(" ")
        if text != bare(row.text):
            edits.append({"range": span(row.text, number, 0, len(bare(row.text))), "newText": text})
    return edits


def parts_of(row):
    """The words of a row; a TEXT is one, as it stands."""
    if "TEXT" not in row.kinds:
        return row.words
    place = row.kinds.index("TEXT")
    return row.words[:place] + [row.rest_from(place)]
