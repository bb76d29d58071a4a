"""Puts the parts of a page, which stand in pages/, into one file that needs nothing beside it."""
import json
import os

from . import tool

FOLDER = os.path.join(os.path.dirname(os.path.abspath(__file__)), "pages")
TIMELINE_SCRIPTS = ("elements.js", "timeline_bits.js", "timeline_trace.js", "timeline_scale.js", "timeline_lanes.js", "timeline_marks.js",
                    "timeline_flags.js", "timeline_paint.js", "timeline_signals.js", "timeline_cursors.js", "timeline_tips.js",
                    "timeline_gestures.js", "timeline_toolbar.js", "timeline.js")
TIMELINE_STYLES = ("design.css", "timeline.css")
LIVE_SCRIPTS = TIMELINE_SCRIPTS + ("live_items.js", "live_changes.js", "live_tabs.js", "live_tables.js", "live_wrong.js",
                                   "live_nodes.js", "live_run.js", "live_about.js", "live_address.js", "live.js")
LIVE_STYLES = TIMELINE_STYLES + ("live.css",)


def part(name):
    return tool.read(os.path.join(FOLDER, name)).decode()


class Ready(str):
    """Content that is JSON already."""


def content_text(content):
    """Content as JSON that can stand in a script element."""
    if isinstance(content, Ready):
        return content
    return json.dumps(content, separators=(",", ":"), ensure_ascii=True).replace("<", "\\u003c")


def page(name, styles, scripts, content):
    """The page of a template, with its parts and its content in their places."""
    text = part(name).replace("/*STYLE*/", "".join(map(part, styles)), 1)
    text = text.replace("/*SCRIPT*/", "".join(map(part, scripts)), 1)
    return text.replace("/*CONTENT*/", content_text(content), 1)


def live_page(content):
    """The page that follows a script."""
    return page("live.html", LIVE_STYLES, LIVE_SCRIPTS, content)


def timeline_page(content):
    """The page of a timeline alone."""
    return page("timeline.html", TIMELINE_STYLES, TIMELINE_SCRIPTS + ("timeline_print.js", "timeline_page.js"), content)
