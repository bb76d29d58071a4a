"""Generated scripts through each command: each ends with a status, and what it tells agrees with what cobench replies."""
import json
import os
import re
import subprocess

from helper import in_parallel, put, real, run
from odd_scripts import odd_script
from test_bad_input import CALLS

from cobench_tools import ini, session, tool
from cobench_tools.evidence import Evidence

MANY = 240


def all_240_generated_scripts_go_through_each_command():
    real()
    told = [text for text in in_parallel(through_each_command, range(MANY)) if text]
    assert not told, "\n".join(told[:20])


def through_each_command(seed):
    """What is wrong with what the commands make of a script, or nothing."""
    put("net.txt", odd_script(seed))
    status, text, _ = run("expand", "net.txt")
    put("replies.txt", replies_to(text) if status == 0 else b"")
    put("x.eds", b"\n".join(odd_script(seed).split(b"\n")[:200]))
    put("x.log", run("candump", "replies.txt")[1])
    wrong = [f"{seed} {name}: {why}" for name in CALLS for why in [why_wrong(name)] if why]
    return "; ".join(wrong or (disagreements(seed) if status == 0 else []))


def replies_to(text):
    return subprocess.run(real().split(" "), input=text, stdout=subprocess.PIPE).stdout


def why_wrong(name):
    """What is wrong with how a command ended, or None."""
    files = {"SCRIPT": "net.txt", "REPLIES": "replies.txt", "EDS": "x.eds", "DCF": "x.eds", "LOG": "x.log"}
    words = [files.get(word, real() if "stand_in" in word else word) for word in CALLS[name]]
    status, output, faults = run(*words)
    lines = [line for line in faults.splitlines() if ": warning: " not in line]
    if status not in (0, 1, 2) or "Traceback" in faults or "cobtool itself" in faults:
        return f"status {status}: {faults[-400:]}"
    return f"status 2 with {len(output)} bytes and {lines}" if status == 2 and (output or len(lines) != 1) else None


def disagreements(seed):
    """Where the tools tell something else than cobench."""
    answered = session.run("net.txt", real(), Evidence.QUERIES)
    diagnostics = [tool.shown(line) for line in answered.lines("diag")]
    findings = json.loads(run("check", "--json", "--cobench", real(), "net.txt")[1].decode())["findings"]
    refused = [reply for _, reply in answered.pairs if not reply.is_accepted()]
    pairs = {
        "diagnostics": ([each["words"] for each in findings if re.match("[EW][0-9]", each["code"])], diagnostics),
        "refused": (sum(each["code"] == "refused" for each in findings), len(refused)),
        "faults of messages": (planned_faults(Evidence(answered)), sorted(line for line in diagnostics if re.match("E.. message", line))),
        "unused lines": (unused_lines(answered), [line for line in diagnostics if line.startswith("W20")]),
        "files": (exported_nodes(), sorted(str(node) for node in answered.project.nodes)),
    }
    return [f"{seed} {what}: {one} and {two}" for what, (one, two) in pairs.items() if one != two]


def planned_faults(evidence):
    """The faults that the plan of messages finds, as lines of `diag`."""
    return sorted({f"{cause.code} message {name}" for name, planned in evidence.plan.messages.items() for cause in planned.faults})


def unused_lines(answered):
    """The lines of data sheets that aren't used, as lines of `diag`."""
    return [f"W20 eds {name} {number}" for name, lines in sorted(answered.project.texts.items())
            for number in sorted(ini.unused_lines(lines))]


def exported_nodes():
    """The nodes of which `export` writes files."""
    run("export", "--force", "--cobench", real(), "exported", "net.txt")
    return sorted(name.split("_")[0] for name in os.listdir("exported") if name.endswith(".bin"))
