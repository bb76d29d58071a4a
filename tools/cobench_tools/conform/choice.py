"""Which state of a script is the plan of a log: its end, or its last `trace` where edits stand behind that."""
from .. import session, tool
from ..evidence import Evidence
from ..logs.intake import Block
from ..replies import QUERIES
from .causes import Causes
from .judge import Judge
from .plan import Plan
from .run import planned_causes


def ends(commands, wanted):
    """How many commands of a script may make the plan: those up to the wanted `trace`, 0 for all."""
    traces = [place + 1 for place, command in enumerate(commands) if command.name == b"trace"]
    if wanted is not None and not 0 <= wanted <= len(traces):
        raise tool.Fault(f"the script has {len(traces)} commands trace, and no trace {wanted}")
    if wanted is not None:
        return [traces[wanted - 1] if wanted else len(commands)]
    is_edited = traces and any(command.name not in QUERIES for command in commands[traces[-1]:])
    return [len(commands)] + traces[-1:] * bool(is_edited)


class Part:
    """Takes the commands of a script up to a state of it: the end where `turn` is 0, else the other one that there is.

    line   the line of the last command that is taken, where others are left
    count  how many states there are
    """

    def __init__(self, wanted, turn):
        self.wanted, self.turn, self.line, self.count = wanted, turn, None, 0

    def __call__(self, commands):
        found = ends(commands, self.wanted)
        end, self.count = found[self.turn], len(found)
        self.line = commands[end - 1].number if end < len(commands) else None
        return commands[:end]


def plan_at(options, turn):
    """The plan of a state of the script, and how many states there are."""
    part = Part(options.trace, turn)
    plan = Plan(session.run(options.script, options.cobench, Evidence.QUERIES, part))
    plan.line = part.line
    return plan, part.count


def plan_of(options, log, tolerance):
    """The plan of a log: of two states the one with which it begins best, the end of the script where both are the same."""
    plan, count = plan_at(options, 0)
    if count == 1:
        return plan
    plans = [plan, plan_at(options, 1)[0]]
    rows, numbers = log.first_rows()
    return min(plans, key=lambda each: count_of(each, rows, numbers, tolerance)) if rows else plan


def count_of(plan, rows, numbers, tolerance):
    """How often something isn't as planned in the first frames of a log."""
    causes = Causes(plan, planned_causes(plan, tolerance), tolerance)
    Judge(plan, tolerance, causes).take(Block(rows, numbers))
    return sum(cause.count for cause in causes.all())
