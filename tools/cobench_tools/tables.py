"""Tables as text, Markdown, CSV and HTML."""
import csv
import io
from typing import Any, Dict, Iterable, List, Optional, Sequence

from . import safe_text
from .safe_text import NUMBER, markdown, markup


class Table:
    """A table: its title, the names of its columns, its rows of texts, and what stands below it.

    key    the name by which a command's `--table` takes it alone
    marks  the class of rows that a page colours, by place
    """

    def __init__(self, key: str, title: str, columns: Sequence[str], rows: Iterable[Iterable[Any]], below: str = "",
                 marks: Optional[Dict[int, str]] = None) -> None:
        self.key, self.title, self.columns, self.below, self.marks = key, title, columns, below, marks or {}
        self.rows = [[safe_text.readable(str(cell)) for cell in row] for row in rows]

    def is_number(self, column: int) -> bool:
        """Whether each cell of a column is a number or empty, and one is a number."""
        cells = [row[column] for row in self.rows if row[column] not in ("", "-")]
        return bool(cells) and all(NUMBER.fullmatch(cell) for cell in cells)


def text_lines(table: Table) -> List[str]:
    """A table's lines, its columns as wide as they have to be, numbers on the right."""
    widths = [max(len(row[place]) for row in [list(table.columns)] + table.rows) for place in range(len(table.columns))]
    numbers = [table.is_number(place) for place in range(len(widths))]

    def line(cells: Sequence[str]) -> str:
        texts = [cell.rjust(width) if number else cell.ljust(width)
                 for cell, width, number in zip(cells, widths, numbers)]
        return "  ".join(texts).rstrip()

    rule = "  ".join("-" * width for width in widths)
    return [line(table.columns), rule] + [line(row) for row in table.rows]


def as_text(heading: Sequence[str], tables: Sequence[Table]) -> str:
    """Tables as plain text, each under its title."""
    blocks = ["\n".join(heading)]
    for table in tables:
        lines = [table.title] + (text_lines(table) if table.rows else ["none"]) + table.below.splitlines()
        blocks.append("\n".join(lines))
    return "\n\n".join(block for block in blocks if block) + "\n"


def as_markdown(heading: Sequence[str], tables: Sequence[Table]) -> str:
    """Tables as Markdown; the first line of the heading is the title of all."""
    blocks = [f"# {markdown(heading[0])}"] + [markdown(line) for line in heading[1:]] if heading else []
    for table in tables:
        blocks.append(f"## {markdown(table.title)}")
        rows = [[markdown(cell) for cell in row] for row in [list(table.columns)] + table.rows]
        rule = ["---:" if table.is_number(place) else "---" for place in range(len(table.columns))]
        lines = ["| " + " | ".join(row) + " |" for row in [rows[0], rule] + rows[1:]]
        blocks.append("\n".join(lines) if table.rows else "None.")
        blocks += [markdown(table.below)] if table.below else []
    return "\n\n".join(blocks) + "\n"


def csv_of(columns: Sequence[str], rows: Iterable[Iterable[Any]]) -> str:
    """Rows as CSV, the names of their columns in the first line."""
    text = io.StringIO()
    writer = csv.writer(text, lineterminator="\n")
    writer.writerow(columns)
    writer.writerows([safe_text.csv_cell(str(cell)) for cell in row] for row in rows)
    return text.getvalue()


def as_csv(table: Table) -> str:
    """A table as CSV."""
    return csv_of(table.columns, table.rows)


def html_table(table: Table) -> str:
    """A table as HTML, without its title."""
    sides = [' class="number"' if table.is_number(place) else "" for place in range(len(table.columns))]

    def row(cells: Sequence[str], tag: str, mark: Optional[str] = None) -> str:
        start = f'<tr class="{mark}">' if mark else "<tr>"
        return start + "".join(f"<{tag}{side}>{markup(cell)}</{tag}>" for cell, side in zip(cells, sides)) + "</tr>"

    body = "".join(row(cells, "td", table.marks.get(place)) + "\n" for place, cells in enumerate(table.rows))
    below = f"<p>{markup(table.below)}</p>\n" if table.below else ""
    return f"<table>\n<thead>{row(table.columns, 'th')}</thead>\n<tbody>\n{body}</tbody>\n</table>\n{below}"


def html_section(table: Table) -> str:
    """A table as HTML under its title."""
    wide = f'<div class="wide">{html_table(table)}</div>\n' if table.rows else "<p>None.</p>\n"
    return f"<section>\n<h2>{markup(table.title)}</h2>\n{wide}</section>\n"
