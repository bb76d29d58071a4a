"""Says what the bus has to carry at worst, and whether each frame is in time."""
import os

from .. import acceptance, foreign, load_tables, network, output, papers, tables, tool
from ..evidence import Evidence
from ..load import Load
from ..load_findings import LoadFindings
from ..load_picture import picture
from ..page import page_of
from ..wiring import Wiring

SUMMARY = "say what the bus has to carry at worst, and which frames may be late"

AFTER = f"""Runs cobench on SCRIPT, and prints for each identifier how long its frames are and how
often they can come, its share of the bus, and the longest time that one waits until
it is there whole: without stuff bits, and with the most that a frame can have. At
worst each node sends an emergency at once, and one SDO frame of 8 bytes has just
started. Frames of others are counted by --foreign, and as a recording has them by
--with: each identifier that SCRIPT doesn't plan, and SDO behind the last start
command, as far apart on an average as there, and sooner by as much. Beside
it stand the longest wait in the trace, which may be no longer, and the deadline: for
what SYNC sends the window (--window, else the next SYNC at which it is sent again),
for a heartbeat what the shortest consumer time leaves of its period, for others
their own period. What may be late is an error; emergencies, SDO and frames of others
have no deadline. The boot has a table of its own. The trace has no stuff bits in
versions 1 and 2; in version 3 it has those of ISO 11898-1, and so have SYNC,
heartbeats and the boot, whose bytes are known.

A frame that is sent at changes, without inhibit time and event time, has no bound,
and neither has what goes behind it: a warning says what would bound it. With --assume US
it is taken to come at most each US microseconds.

The waits are those of Davis, Burns, Bril and Lukkien, Real-Time Systems 35 (2007).

{network.HELP}

  cobtool load --window 2000 network.txt
  cobtool load --foreign 18FEF100:8:100000 --with machine.log network.txt
  cobtool load --format html network.txt > load.html"""


def arguments(parser):
    parser.epilog = AFTER
    parser.add_argument("--format", choices=["text", "markdown", "csv", "html", "svg"], default="text",
                        help="text without it")
    parser.add_argument("--table", choices=list(load_tables.TABLES), help="print this table alone")
    parser.add_argument("--title", metavar="TEXT", help="what stands above, not the name of SCRIPT")
    parser.add_argument("--window", metavar="US", type=int,
                        help="the microseconds behind SYNC within which its PDOs have to come")
    parser.add_argument("--assume", metavar="US", type=int,
                        help="take frames that nothing bounds to come at most each US")
    foreign.add_arguments(parser)
    parser.add_argument("--json", action="store_true", help="print all of it as JSON")
    parser.add_argument("--junit", metavar="FILE", help="write what is wrong as JUnit XML too")
    network.add_arguments(parser)


def check(options):
    """Whether the times are such that can be."""
    for name in ("window", "assume"):
        time = getattr(options, name)
        if time is not None and not 1 <= time <= 10_000_000:
            raise tool.Fault(f"--{name} is 1 to 10,000,000 microseconds, not {time:,}")


def record(load, each):
    """What there is to tell of the frames of an identifier, for programs."""
    plain, stuffed = load.plain, load.stuffed
    return {"identifier": each.identifier, "extended": each.is_extended, "foreign": each.is_foreign,
            "frames": each.name,
            "sender": each.sender, "bytes": each.size, "once": each.is_once,
            "period_us": None if each.is_once else each.period, "jitter_us": stuffed.streams[each].jitter,
            "time_us": plain.duration(each), "time_stuffed_us": stuffed.duration(each),
            "share": plain.share(each), "share_stuffed": stuffed.share(each),
            "wait_us": plain.of[each].wait, "wait_stuffed_us": stuffed.of[each].wait,
            "seen_us": load.seen[each].longest,
            "deadline_us": load.deadline(each)[0] if each.has_deadline() else None, "late": load.is_late(each)}


def page(heading, load, report, shown):
    """The page: what is wrong, the picture, and the tables."""
    sections = [tables.html_section(table) for table in shown]
    drawn = f'<section>\n<h2>What each waits for at worst</h2>\n<div class="wide">{picture(load)}</div>\n</section>\n'
    return page_of(heading, [papers.wrong_section(report), drawn] + sections)


def printed(options, load, report):
    """What is printed of the load of a network."""
    if options.json:
        return report.as_json(frames=[record(load, each) for each in load.traffic])
    if options.format == "svg":
        return picture(load)
    heading = load_tables.heading(options.title or os.path.basename(tool.name_of(options.script)), load)
    shown = load_tables.tables_of(load, options.table)
    if options.format == "csv":
        return tables.as_csv(shown[0])
    if options.format == "html":
        return page(heading + [papers.made_of(options.script, report)], load, report, shown)
    return (tables.as_text if options.format == "text" else tables.as_markdown)(heading, shown)


def run(options):
    check(options)
    answered = network.asked(options)
    wiring = Wiring(answered)
    load = Load(wiring, answered.lines("trace"), options.window, options.assume, foreign.traffic_of(options, wiring))
    found = LoadFindings(load, Evidence(answered).origins, options.script).all()
    report = network.report_of(options, answered, found, acceptance.LOAD)
    if options.junit:
        output.write_file(options.junit, report.as_junit().encode("utf-8", "surrogateescape"))
    if not options.json:
        network.tell(report.open)
    tool.put(printed(options, load, report))
    return report.status
