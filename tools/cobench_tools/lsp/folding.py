"""Which rows can be folded: comments, blocks, and the commands below a comment; sections of data sheets."""
from __future__ import annotations

from .asked import Asked, Params, Server
from .paths import is_sheet
from .positions import bare
from .sheet_places import headers

COMMENT, REGION = "comment", "region"


def folding_ranges(server: Server, params: Params) -> list[Params]:
    """The ranges of a file."""
    asked = Asked(server, params)
    if is_sheet(asked.path):
        starts = [row for row, _ in headers(asked.rows)]
        ends = starts[1:] + [len(asked.rows)]
        return [fold(start, end - 1, REGION) for start, end in zip(starts, ends) if end - 1 > start]
    commands = [(asked.outline.row_of(each), asked.outline.end_of(each), each.is_comment())
                for each in asked.outline.of_file(asked.path)]
    blocks = [fold(start, end, REGION) for start, end, _ in commands if end > start]
    return blocks + comments(commands) + parts(commands, asked.rows)


def fold(start, end, kind):
    return {"startLine": start, "endLine": end, "kind": kind}


def runs(commands):
    """The commands in runs of comments and of others: the first and last row of each, and whether they are comments."""
    found = []
    for start, end, is_comment in commands:
        if found and found[-1][2] == is_comment:
            found[-1][1] = end
        else:
            found.append([start, end, is_comment])
    return found


def comments(commands):
    """Comments of more than one row."""
    return [fold(start, end, COMMENT) for start, end, is_comment in runs(commands) if is_comment and end > start]


def parts(commands, rows):
    """A comment with the commands below it, up to the next one: from the comment's last row that says something."""
    found = runs(commands)
    made = []
    for (start, end, is_comment), below in zip(found, found[1:]):
        if is_comment:
            head = next((row for row in range(end, start - 1, -1) if bare(rows[row]).strip(" \t#")), end)
            made.append(fold(head, below[1], REGION))
    return made
