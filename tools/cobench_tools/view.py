"""What a command shows: a trace that is given or that cobench makes of a script, or a recording, with its project."""
import argparse
from typing import List, Optional, Sequence, Tuple

from . import acceptance, findings, meaning, network, recording, replies, session, tool, trace
from .conform import choice
from .conform.plan import Plan
from .evidence import Evidence
from .forms import FORMS
from .hints import Hints
from .logs import part
from .project import Project
from .report import Report
from .script import Command
from .reader import Reader

HELP = f"""Where SCRIPT stands alone, cobench is run on it, and the trace is that of the network
at its end, or with --trace N at the Nth `trace` of it; errors, as `cobtool check` finds
them, are reported on the standard error. With --log LOG a recording is shown in the words
of SCRIPT, in each form that `cobtool conform` reads; its times count from its first
frame, and --from and --to take a part of it.

{session.PROGRAM}"""


class Shown:
    """What is shown.

    lines    its frames and notes, and what a recording has besides
    project  the project that it is of, None where that isn't known
    bit      the microseconds of a bit
    end      the last moment
    report   what is wrong with the script that it is of, None where cobench wasn't run on one; and the status by it
    plan     what is planned, where it is a recording
    """

    def __init__(self, lines: List[trace.Line], project: Optional[Project], report: Optional[Report] = None,
                 plan: Optional[Plan] = None) -> None:
        self.lines, self.project, self.report, self.plan = lines, project, report, plan
        self.status: int = report.status if report else tool.DONE
        self.bit = plan.bus_bit if plan else trace.bit_time(lines, project)
        self.end = max(project.horizon if project and not plan else 0, lines[-1].time)

    def network(self, with_names: bool = False) -> meaning.Network:
        """The network in whose words it is shown."""
        return recording.network_of(self.plan, with_names) if self.plan else meaning.Network(self.project, with_names)


def add_arguments(parser: argparse.ArgumentParser) -> None:
    """The words that say what is shown, but for the names of files."""
    parser.add_argument("--log", metavar="LOG", help="show this recording in the words of SCRIPT; - is the standard input")
    parser.add_argument("--channel", metavar="NAME", help="take the frames of this channel of LOG alone, as can0, or 1 of ASC and TRC")
    parser.add_argument("--bitrate", metavar="KBIT", type=int, choices=trace.BIT_RATES,
                        help="the bit rate of LOG, where it isn't that of SCRIPT")
    part.add_arguments(parser)
    trace.add_arguments(parser)
    acceptance.add_arguments(parser)
    session.add_arguments(parser)


def of(script_path: Optional[str], path: Optional[str], options: argparse.Namespace) -> Shown:
    """What a command shows that is given a script, a trace of it, or one of both as `path`."""
    if options.log is None and (options.first or options.last or options.channel):
        raise tool.Fault("--from, --to and --channel are words of --log")
    given = script_path or path
    if options.log is not None or given is None:
        return recorded(given, options)
    if script_path and path:
        return Shown(*trace_and_project(script_path, path, options.trace))
    if script_path or is_script(given):
        return simulated(given, options)
    traces = trace.traces_of(given, replies.read_text(given))
    return Shown(trace.as_counted(trace.pick(given, traces, options.trace)), None)


def is_script(path: str) -> bool:
    """Whether a file is a script, and no trace."""
    if path == "-":
        return False
    for line in replies.read_text(path).split(b"\n")[:1000]:
        word = tool.shown(line).split(" ")[0].strip()
        if word and not word.startswith("#"):
            return word in FORMS or word.startswith("<")
    return False


def simulated(path: str, options: argparse.Namespace) -> Shown:
    """The trace that cobench makes of a script."""
    answered = session.run(path, options.cobench, Evidence.QUERIES, choice.Part(options.trace, 0))
    lines = trace.of_answer(answered.lines("trace"), answered.project)
    if not lines:
        raise tool.Fault(f"{tool.name_of(path)}: its trace has no lines")
    return Shown(lines, answered.project, report_of(answered, options))


def recorded(path: Optional[str], options: argparse.Namespace) -> Shown:
    """A recording in the words of a script."""
    if path is None:
        raise tool.Fault("--log LOG is shown in the words of a SCRIPT, which isn't given")
    tool.check_one_input(path, options.log)
    log = recording.opened(options)
    plan = recording.plan_of(argparse.Namespace(script=path, cobench=options.cobench, trace=options.trace), log)
    if options.bitrate:
        plan.bus_bit = 1000 // options.bitrate
    return Shown(trace.counted(recording.lines_of(log), plan.project), plan.project, report_of(plan.answered, options), plan)


def report_of(answered: session.Session, options: argparse.Namespace) -> Report:
    """What is wrong with a session of which something is shown, once its errors were told."""
    report = network.report_of(options, answered)
    network.tell([each for each in report.open if each.severity == findings.ERROR])
    return report


def whole(commands: Sequence[Command]) -> Project:
    """The project of a whole script, without the edits that can be seen to be refused."""
    project, hints = Project(), Hints()
    for command in commands:
        if not hints.why(command, project):
            project.take(command)
    return project


def trace_and_project(script_path: str, replies_path: str, wanted: Optional[int]) -> Tuple[List[trace.Line], Optional[Project]]:
    """The trace among the replies to a script, or the trace alone, and its project."""
    tool.check_one_input(script_path, replies_path)
    reader = Reader()
    commands, text = reader.commands(script_path), replies.read_text(replies_path)
    if not trace.is_session(text):
        project = whole(commands)
        return trace.counted(trace.pick(replies_path, trace.traces_of(replies_path, text), wanted), project), project
    answered = replies.session_of(replies_path, text)
    if answered.cut:
        raise tool.Fault(f"{answered.cut}: the replies are cut")
    found, kept = traces(replies.pairs(script_path, commands, reader.raw or [], answered)[0], wanted or 1)
    return trace.counted(trace.pick(replies_path, found, wanted), kept), kept


def traces(pairs: session.Pairs, wanted: int) -> Tuple[List[List[trace.Line]], Optional[Project]]:
    """The traces with lines in them that a script's commands gave, and the project as it was at the wanted one."""
    project, found, kept = Project(), [], None
    for command, reply in pairs:
        if not reply.is_accepted():
            continue
        project.take(command)
        lines = trace.trace_of(reply.lines or ()) if command.name == b"trace" else None
        if lines:
            found.append(lines)
            kept = project.copy() if len(found) == wanted else kept
    return found, kept
