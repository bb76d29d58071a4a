"""Draws a trace: one HTML file that any browser shows."""
import os

from .. import bundle, papers, tool, view
from ..picture import Picture

SUMMARY = "draw a trace as an HTML page that any browser shows"

AFTER = f"""Draws the run of SCRIPT: nodes, messages and values have their names, and the events
of the scenario and power are drawn. Instead of SCRIPT a TRACE may stand, the replies
of a session with `trace` in it, or the lines of a trace alone, with --script SCRIPT
for these; without that a node without power looks as it was last heard. - is the
standard input.

{view.HELP}

The file needs nothing beside it and no network, and prints whole: it says when it was
made, of which version of SCRIPT, where git has one, and what is wrong. The wheel scrolls, and zooms with
Ctrl; dragging moves; two fingers zoom; pointing or tapping says what is there;
the button ? lists the keys. The page's address ends with the part of the run that
is shown, in microseconds: trace.html#120000-280000 opens that part. Status: 0, 1
where SCRIPT has errors, or 2 where there is no trace; nothing is printed then.

  cobtool timeline network.txt > trace.html
  cobtool timeline --log machine.log network.txt > machine.html"""


def arguments(parser):
    parser.epilog = AFTER
    parser.add_argument("replies", metavar="SCRIPT", help="the script; or TRACE: the replies of a session, or the lines of a trace")
    parser.add_argument("--script", metavar="SCRIPT", help="the script that the trace is of")
    parser.add_argument("--title", metavar="TEXT", help="what stands above, not the name of SCRIPT or TRACE")
    view.add_arguments(parser)


def run(options):
    shown = view.of(options.script, options.replies, options)
    path = options.log or options.script or options.replies
    title = options.title or (tool.name_of(path) if path == "-" else os.path.basename(path))
    made = papers.content_of(options.script or options.replies, shown.report)
    tool.put(bundle.timeline_page({**Picture(shown).content(title), **made}))
    return shown.status
