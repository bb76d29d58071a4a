#!/usr/bin/env python3
"""Refuses each growth of memory of the built program `checks_answers` in turn, while a workbench answers queries.

Takes the path of the program, and names of the sessions of `refuse.py`, or none for all. Each query is asked twice.
Where the refused growth falls into an answer, the program says that there is no memory for it and goes on: the answer
alone is missing, and every later one, the same query asked again first, is whole, as if the refused one hadn't been
asked. Where it falls into an edit or before the first command, the program ends there, and what it wrote is the
beginning of the whole output. Prints how many growths there are, and into how many answers one fell. Wants gcc.
Run it from anywhere, after `rt run` in crates/checks_answers: bench/asked_again.py PROGRAM, where PROGRAM is
crates/checks_answers/out/checks_answers.
"""
import memory
from refuse import SESSIONS

QUERIES = ("dcf", "cdcf", "diag", "trace", "project")


def asked(session):
    """The session with each query asked of a workbench, twice."""
    lines, out, left = session.split("\n")[:-1], ["new"], 0
    for line in lines:
        words = line.split()
        is_query = left == 0 and words[0] in QUERIES
        out += [f"answer {line}"] * 2 if is_query else [line]
        left = left - 1 if left else int(words[2]) if words[:1] == ["eds"] else 0
    return "\n".join(out) + "\n"


def blocks(output):
    """The output cut before each query."""
    found = [b""]
    for line in output.splitlines(keepends=True):
        if line.startswith(b"answer "):
            found.append(b"")
        found[-1] += line
    return found


def without_one(whole, got):
    """Whether one answer alone is missing."""
    one, other = blocks(whole), blocks(got)
    if len(one) != len(other):
        return False
    differ = [(a, b) for a, b in zip(one, other) if a != b]
    if len(differ) != 1:
        return False
    asked_for = differ[0][0].split(b"\n", 1)[0] + b"\n"
    return differ[0][1].startswith(asked_for + b"no memory\n") and differ[0][0].endswith(differ[0][1][len(asked_for) + 10:])


def judge(whole, one):
    """How a run ended: with all answers, with one missing, before an answer, or wrongly."""
    if one.returncode == 0 and one.stdout == whole.stdout:
        return "served"
    if one.returncode == 0 and without_one(whole.stdout, one.stdout):
        return "missing"
    return "ended" if one.returncode == 1 and whole.stdout.startswith(one.stdout) else "wrong"


def check(program, name, library):
    """Whether each run over a session ends rightly, and what was counted."""
    ends = memory.refuse_each(judge, program, asked(SESSIONS[name]).encode(), library)
    counted = f"{ends.count('missing')} answers missing, all later ones whole; {ends.count('ended')} ended"
    return "wrong" not in ends, f"{len(ends):6} growths, each refused once: {counted}; {ends.count('wrong')} wrong"


if __name__ == "__main__":
    memory.main(__doc__, check, SESSIONS)
