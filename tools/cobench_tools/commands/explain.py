"""Prints a trace in the words of its project."""
from .. import device, tool, trace, view
from ..tables import csv_of

SUMMARY = "print a trace in the words of its project"

AFTER = f"""SCRIPT may have comments and `eds NAME <FILE`, as `cobtool expand` takes them.
TRACE is the replies to it (the project is then as it was at that trace), or the
lines of a trace alone, as `cobtool export` writes them (the project is then that
of the whole script). One of both can be - for the standard input. Values of
unsigned types are hexadecimal with an h (10h is 16), those of signed types
decimal; of REAL32 and REAL64 in version 3 the shortest decimal number that reads back,
or NaN, inf or -inf.

{view.HELP}

Status: 0, 1 where SCRIPT has errors, or 2 where there is no trace or the two aren't of
one session; nothing is printed then.

  cobtool explain network.txt | grep EMCY
  cobtool explain --log machine.log network.txt"""

COLUMNS = ["time_us", "identifier", "kind", "node", "name", "subject", "text", "bytes"]
SIGNALS = ["time_us", "identifier", "node", "name", "message", "entry", "signal", "value"]


def as_text(line, said):
    if isinstance(line, trace.Note):
        return f"{line.time:010} {said.text}\n"
    return f"{line.time:010} {line.shown} {said.text}\n"


def as_row(line, said, network):
    identifier = "" if isinstance(line, trace.Note) else line.shown
    data = "" if isinstance(line, trace.Note) else line.data.hex(" ").upper()
    name = "" if said.node is None else network.name(said.node)
    return [line.time, identifier, said.kind, said.node or "", name, said.subject, said.text, data]


def signal_rows(line, said, network):
    """The values that a frame carries as a PDO, each in a row, as decimal numbers."""
    start = 0
    for label, bits, kind in said.parts or ():
        entry, _, name = label.partition(" ")
        value = device.decimal_at(line.data, start, bits, kind)
        yield [line.time, f"{line.identifier:03X}", said.node, network.name(said.node), said.subject, entry, name, value]
        start += bits


def printed(lines, network, options):
    """The trace in the form that is asked for."""
    said = [network.of(line) for line in lines]
    if options.signals:
        return csv_of(SIGNALS, (row for line, each in zip(lines, said) for row in signal_rows(line, each, network)))
    if options.csv:
        return csv_of(COLUMNS, (as_row(line, each, network) for line, each in zip(lines, said)))
    return "".join(map(as_text, lines, said))


def arguments(parser):
    parser.epilog = AFTER
    parser.add_argument("script", metavar="SCRIPT", help="the script, with comments and files; - is the standard input")
    parser.add_argument("replies", metavar="TRACE", nargs="?", help="the replies to it, or the lines of a trace; cobench is run without it")
    parser.add_argument("--csv", action="store_true", help="print a table for spreadsheets, a row for each line")
    parser.add_argument("--signals", action="store_true",
                        help="print a table of the values in PDOs, a row for each, as decimal numbers")
    parser.add_argument("--names", action="store_true", help="give the names of entries in the EDS too, also of those in PDOs")
    view.add_arguments(parser)


def run(options):
    shown = view.of(options.script, options.replies, options)
    tool.put(printed(shown.lines, shown.network(options.names or options.csv or options.signals), options))
    return shown.status
