"""A page of tables: one HTML file that needs nothing beside it, and prints on A4."""
import os

from . import tool
from .safe_text import markup
from .tables import html_section

TEMPLATE = os.path.join(os.path.dirname(os.path.abspath(__file__)), "page.html")


def page_of(heading, sections):
    """The page of a heading, whose first line is its title, and of sections in HTML."""
    head = [f"<h1>{markup(heading[0])}</h1>"] + [f"<p>{markup(line)}</p>" for line in heading[1:]]
    before, rest = tool.read(TEMPLATE).decode().split("/*TITLE*/")
    middle, after = rest.split("/*BODY*/")
    return before + markup(heading[0]) + middle + "\n".join(head) + "\n" + "".join(sections) + after


def tables_page(heading, tables):
    """The page of tables."""
    return page_of(heading, map(html_section, tables))
