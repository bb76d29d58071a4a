"""Prints what a trace says of the bus in numbers."""
import os

from .. import tables, tool, view
from ..stats import Stats

SUMMARY = "print counts, periods and waits of a trace, its boots, SYNC to the last PDO"

AFTER = f"""For each identifier: how many frames, their share of the time, the least, mean and
greatest time between two of them, and the longest that one may have waited for
the bus (a frame waits no longer than the bus is busy, and not while one with a
higher identifier starts). For each boot of a node when it began, and how long it
took. For SYNC its period, and the time to the last PDO that follows it. Instead of
SCRIPT a TRACE may stand, the replies of a session with `trace` in it, or the lines of
a trace alone, with --script SCRIPT for its names; - is the standard input. CSV is one
table: the identifiers, where --table doesn't say which.

{view.HELP}

Status: 0, 1 where SCRIPT has errors, or 2 where there is no trace; nothing is printed
then.

  cobtool stats network.txt
  cobtool stats --log machine.log network.txt"""

TABLES = ("identifiers", "boots", "sync")


def arguments(parser):
    parser.epilog = AFTER
    parser.add_argument("replies", metavar="SCRIPT", help="the script; or TRACE: the replies of a session, or the lines of a trace")
    parser.add_argument("--script", metavar="SCRIPT", help="the script that the trace is of")
    parser.add_argument("--format", choices=["text", "markdown", "csv"], default="text", help="text without it")
    parser.add_argument("--table", choices=TABLES, help="print this table alone")
    view.add_arguments(parser)


def run(options):
    shown = view.of(options.script, options.replies, options)
    stats = Stats(shown)
    if options.format == "csv":
        tool.put(tables.as_csv(stats.tables(options.table or TABLES[0])[0]))
        return shown.status
    heading = stats.heading(os.path.basename(tool.name_of(options.log or options.script or options.replies)))
    tool.put((tables.as_text if options.format == "text" else tables.as_markdown)(heading, stats.tables(options.table)))
    return shown.status
