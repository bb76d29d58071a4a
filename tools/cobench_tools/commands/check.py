"""Says all that is wrong with a script, as editors and compilers say it."""
from .. import acceptance, files_check, judgement, master_file, network_files, output, session, tool
from ..evidence import Evidence
from ..report import Report
from ..script_order import ScriptOrder

SUMMARY = "say all that is wrong with a script, each with its line and cause"

AFTER = f"""Runs cobench on SCRIPT, and reports each refused command, each diagnostic of the
project that the script makes, each node that fails to boot or isn't configured at
the horizon, each emergency of the planned run that no event explains, with the
nodes that it stops, and each message that never comes. Warnings are about
lines that a later one replaces, messages without a source or a sink, events behind
the horizon, REALs outside their limits, and data sheets that rule the bit rate out or
have faults:

  net.txt:12: error: message y: sink 1 of .. has 32 bits, and source 1 .. 16 [E09]

FILE:LINE is the command, or the line of the data sheet, that a finding is about;
findings stand in the order of the script. The last line has how many there are, and
how many nodes booted.

{acceptance.HELP}

With --files DIR it says too which files of that folder aren't those of one export
of the script as it is now: by export.json, which cobtool export writes there, a
file is edited, missing, stale (of another state of the script), or one of a mix
(an export was interrupted).

{session.PROGRAM} Status: 0 without errors, 1 with some, 2 where the script or DIR
can't be read, or cobench can't be run.

  cobtool check --werror --allow 'E02 default 5' network.txt"""


def add_arguments(parser):
    """The words that `export` has too."""
    acceptance.add_arguments(parser)
    parser.add_argument("--sort", choices=["line", "code"], default="line",
                        help="the findings by the lines of the script, or by what kind they are; by line without it")
    parser.add_argument("--json", action="store_true", help="print the findings as JSON, the accepted ones too")
    parser.add_argument("--junit", metavar="FILE", help="write them as JUnit XML too, a test case for each part of the project")
    session.add_arguments(parser)


def arguments(parser):
    parser.epilog = AFTER
    parser.add_argument("script", metavar="SCRIPT", help="the script, with comments and files; - is the standard input")
    parser.add_argument("--files", metavar="DIR", help="say which files of an export aren't what the script makes")
    add_arguments(parser)


def report_of(options, queries=(), folder=None):
    """The report of a command's SCRIPT, and of a folder with its files; these queries are asked too."""
    answered = session.run(options.script, options.cobench, Evidence.QUERIES + tuple(queries))
    found = judgement.of_check(answered)
    found = found if options.sort == "code" else ScriptOrder(answered.pairs).sorted(found)
    if folder is not None:
        found += files_check.findings_of(folder, network_files.files_of(answered, master_file.of(answered)))
    acceptance.judge(found, options, acceptance.PLAN | acceptance.SCRIPT | acceptance.FILES)
    report = Report(answered, found)
    if options.junit:
        output.write_file(options.junit, report.as_junit().encode("utf-8", "surrogateescape"))
    return report


def run(options):
    report = report_of(options, () if options.files is None else ("dcf",), options.files)
    tool.put(report.as_json() if options.json else report.as_text())
    return report.status
