"""All that is wrong with a script: by its commands, its diagnostics and its boots, and by what its run shows.

`of` is what each command counts; `of_check` is what `check` and `export` say besides.
"""
from . import findings, real_limits, sheet_faults, slips, taken_twice, trace
from .evidence import Evidence
from .planned_run import PlannedRun
from .run_findings import RunFindings, why_not_over


def of(answered):
    """The findings of a session that was asked `Evidence.QUERIES`."""
    return of_evidence(Evidence(answered))


def of_evidence(evidence):
    found = findings.refused(evidence.answered) + findings.diagnosed(evidence) + findings.unused_values(evidence)
    return found + of_run(evidence)


def of_check(answered):
    """What `check` and `export` say: slips of the script and faults of the data sheets too."""
    evidence = Evidence(answered)
    of_script = slips.of(evidence) + taken_twice.of(evidence) + real_limits.of(evidence) + sheet_faults.of(evidence)
    return of_evidence(evidence) + of_script


def of_run(evidence, said_of=None):
    """What is wrong with the boots, and with all that comes behind them.

    said_of  gives for some nodes what was last said by SDO, where that is known already (findings.last_said)
    """
    lines = trace.of_answer(evidence.answered.lines("trace"), evidence.project)
    run = PlannedRun(evidence, lines)
    said_of = said_of or (lambda nodes: findings.last_said(evidence, lines, nodes))
    booted = findings.of_boots(evidence, run.boots, said_of, lambda node, boot: why_not_over(run, node, boot))
    return booted + RunFindings(evidence, run, booted).all()
