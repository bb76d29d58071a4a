"""The network of a command's SCRIPT, as cobench answers it."""
from . import acceptance, findings, judgement, session, tool
from .evidence import Evidence
from .report import Report
from .wiring import Wiring

# What the help of such a command says of its words and its status.
HELP = f"""Errors, as `cobtool check` finds them, are reported on the standard error, and what is
printed is of the project that the accepted commands make.

{acceptance.HELP}

{session.PROGRAM} Status: 0, 1 where there are errors, 2 where the script can't be
read or cobench can't be run."""


def add_arguments(parser):
    """The words that name SCRIPT and the program, and accept findings."""
    parser.add_argument("script", metavar="SCRIPT", help="the script, with comments and files; - is the standard input")
    acceptance.add_arguments(parser)
    session.add_arguments(parser)


def asked(options):
    """The session of SCRIPT, with what the findings need."""
    return session.run(options.script, options.cobench, Evidence.QUERIES)


def report_of(options, answered, more=(), codes=frozenset()):
    """What is wrong with a session, with what else was found by a command of these codes, what the user accepts marked."""
    found = judgement.of(answered) + list(more)
    acceptance.judge(found, options, acceptance.PLAN | codes)
    return Report(answered, found)


def wired(options):
    """The network of SCRIPT, and what is wrong with it, once its errors were told."""
    answered = asked(options)
    report = report_of(options, answered)
    tell([each for each in report.open if each.severity == findings.ERROR])
    return Wiring(answered), report


def tell(found):
    """Tells findings on the standard error."""
    for line in findings.lines_of(found):
        tool.warn(line)
