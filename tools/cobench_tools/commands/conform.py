"""Says what was recorded on a bus beside what a script plans for it."""
import os

from .. import acceptance, bundle, findings, judgement, output, papers, session, tool, trace
from ..conform import choice
from ..conform import options as judging
from ..conform import tolerance as tolerances
from ..conform.overlay import Overlay, Recorded
from ..conform.report import ConformReport
from ..conform.run import judged
from ..logs import part, source

SUMMARY = "say what was recorded on a bus beside what a script plans"

AFTER = f"""Runs cobench on SCRIPT, reads LOG in one pass, and reports what isn't as planned, each
cause once, with its line in LOG, how often it was there, first and last:

  machine.log:3712: error: node 2 y_axis: its heartbeat comes 152.310 ms after .. [heartbeat-missed]

What is planned to come by itself and never comes is reported too, wherever LOG begins;
the line `not judged` has what LOG is too short for, with the reason.

LOG is what candump -L of can-utils, Vector's tools (ASC), PEAK's (TRC 1.0 to 2.1) or
python-can (CSV) have recorded, also packed by gzip, or what candump prints on a
terminal; its content says which. BLF and MF4 are read by python-can, where it is
installed. LOG may begin and end anywhere, and - is the standard input. --from and --to
take a part of it, by seconds or by a line, as L1234. Error frames and remote frames are
warnings; frames with 29-bit identifiers and FD frames are counted and set aside. The
load counts all frames, at the bit rate of SCRIPT or of --bitrate. --allow cut accepts
a last line that is cut.

What the planned run has at the same time, as a power cut of the scenario and what
follows from it, isn't reported. The first boot-up message or command of LOG, else the
first SYNC, says where in the planned run LOG begins.

The plan is the network at the end of SCRIPT; if edits stand behind its last `trace`,
it is the network at that `trace` where LOG begins as that does. --trace says which.

Times may be off by the jitter, {tolerances.JITTER} us where --jitter doesn't say it (at most an
eighth of a period), and by {tolerances.CLOCK} ppm of what is measured. A frame isn't late that
had to wait for the bus.

A finding is accepted by the words that say which it is: the code, and what it is
of, as 'emcy 5 8130', 'pdo-missing 181', 'sdo-value 5 1017'; --json has them. The
first words will do. An accepted finding isn't reported, and counts for no status.

{session.PROGRAM} Status: 0 without errors, 1 with some, 2 where SCRIPT or LOG can't be
read, or cobench can't be run.

  cobtool conform --jitter 200 --timeline run.html network.txt machine.log"""



def arguments(parser):
    parser.epilog = AFTER
    parser.add_argument("script", metavar="SCRIPT", help="the script, with comments and files")
    parser.add_argument("log", metavar="LOG", help="what was recorded")
    parser.add_argument("--trace", metavar="N", type=int,
                        help="the plan is the network at the Nth `trace` of SCRIPT, 0 for its end")
    parser.add_argument("--format", choices=list(source.NAMES), help="read LOG so, whatever it looks like")
    parser.add_argument("--channel", metavar="NAME", help="take the frames of this channel alone, as can0, or 1 of ASC and TRC")
    part.add_arguments(parser)
    parser.add_argument("--bitrate", metavar="KBIT", type=int, choices=trace.BIT_RATES,
                        help="the bit rate of the bus, where it isn't that of SCRIPT")
    judging.add_arguments(parser)
    parser.add_argument("--timeline", metavar="FILE",
                        help="draw it as an HTML page: each recorded lane above the planned one, the first million frames")
    parser.add_argument("--json", action="store_true", help="print the findings as JSON, the accepted ones too")
    parser.add_argument("--junit", metavar="FILE", help="write them as JUnit XML too")
    acceptance.add_arguments(parser)
    session.add_arguments(parser)


def check(options):
    """Whether the numbers are such that can be."""
    judging.check(options)
    tool.check_one_input(options.script, options.log)


def report_of(options, log):
    """What is wrong with a log, once its timeline is written."""
    tolerance = tolerances.Tolerance(options.jitter, options.clock)
    log.slack = tolerance.jitter
    plan = choice.plan_of(options, log, tolerance)
    if options.bitrate:
        plan.bus_bit = 1000 // options.bitrate
    drawn = Recorded(plan, tolerance) if options.timeline else None
    judge = judged(plan, log, tolerance, options.window or None, options.load, options.values, [drawn] if drawn else [])
    own = judgement.of(plan.answered)
    report = ConformReport(plan, judge, log)
    acceptance.judge(own + report.findings, options, acceptance.PLAN | acceptance.LOG)
    report.own_errors = sum(each.severity == findings.ERROR for each in own if not each.accepted)
    if drawn:
        draw(options, drawn, report)
    return report.judged()


def draw(options, drawn, report):
    """Writes the timeline, with what wasn't accepted as flags."""
    alignment = report.judge.causes.alignment
    zero = alignment.offset if alignment.offset is not None else report.judge.begin
    found = [(cause, finding.text) for cause, finding in zip(report.causes, report.findings) if not finding.accepted]
    title = f"{os.path.basename(tool.name_of(options.log))} and {os.path.basename(tool.name_of(options.script))}"
    made = papers.content_of(options.script, report.judged())
    page = bundle.timeline_page({**Overlay(drawn, report.judge, zero, found).content(title), **made})
    output.write_file(options.timeline, page.encode("utf-8", "surrogateescape"))


def opened(options):
    """The log, of which the last line may be cut where that is accepted."""
    may_be_cut = any(rule.words[0] == "cut" for rule in acceptance.rules_of(options))
    return source.Log(options.log, options.format, options.channel, part=part.Part(options.first, options.last), may_be_cut=may_be_cut)


def run(options):
    check(options)
    report = report_of(options, opened(options))
    if options.junit:
        output.write_file(options.junit, report.as_junit().encode("utf-8", "surrogateescape"))
    tool.put(report.as_json() if options.json else report.as_text())
    return report.status
