#!/usr/bin/env python3
"""Counts what a `trace` behind an edit costs beside the first one.

Takes the path of the built program, and the names of jobs (all where none is given). 126 nodes with heartbeats hold 72
written values each, and the trace goes to ten seconds; behind it come edits, with a `trace` behind each:

inhibit1 inhibit63 inhibit126  another inhibit time of a message of that node
event1 event126                another event time of such a message
consumer                       a heartbeat consumer of node 126
turns                          inhibit times of messages of nodes 126 and 1 by turns, back and forth
phase                          an event of node 126 comes a millisecond later, and another one: its TPDO's timer runs in
                               another phase from then on

Prints for each job the millions of instructions of the first trace, and what each later one takes over it. Ends with
status 1 where that is over 1.2, or where a trace isn't the one of a session that was given the edited project alone.
Wants valgrind. Run it from anywhere: bench/behind.py crates/cobench/out/cobench [JOB..]
"""
import os
import re
import subprocess
import sys
import tempfile
from concurrent.futures import ThreadPoolExecutor

from beside import inhibit

LIMIT = 1.2
COUNTED = re.compile(rb"Collected : (\d+)")


def message(node, inhibit_time, event_time):
    return f"message m{node} {node} 1 255 {inhibit_time} {event_time} 0"


def ends(node):
    return [f"source m{node} 1 6000 0", f"sink m{node} 1 {node % 126 + 1} 6001 0"]


def moved(time):
    return f"event 1 {time} set 126 6000 0 5"


def of_one(node, edit):
    return [message(node, 10, 50), *ends(node)], [edit]


TURNS = [message(126, 20, 50), message(1, 20, 50), message(126, 10, 50), message(126, 30, 50), message(1, 10, 50)]
JOBS = {
    **{f"inhibit{node}": of_one(node, message(node, 20, 50)) for node in (1, 63, 126)},
    **{f"event{node}": of_one(node, message(node, 10, 70)) for node in (1, 126)},
    "consumer": of_one(126, "param 126 1016 1 100000"),
    "turns": ([message(126, 10, 50), *ends(126), message(1, 10, 50), *ends(1)], TURNS),
    "phase": ([message(126, 10, 50), *ends(126), moved(3_000_000)], [moved(3_001_000), moved(3_002_000)]),
}


def network():
    """The nodes and their values, without messages."""
    lines = inhibit(1)
    return lines[:next(place for place, line in enumerate(lines) if line.startswith("message"))]


def played(program, lines, counted):
    """What a session prints, and how many instructions it takes where they are counted."""
    with tempfile.TemporaryDirectory() as folder:
        script = os.path.join(folder, "script")
        with open(script, "w", encoding="utf-8") as file:
            file.write("\n".join(lines) + "\n")
        count = ["valgrind", "--tool=callgrind", f"--callgrind-out-file={folder}/counts"] if counted else []
        done = subprocess.run([*count, program, "--script", script], stdout=subprocess.PIPE, stderr=subprocess.PIPE)
    if done.returncode:
        sys.exit(f"{program} ended with status {done.returncode}: {done.stderr.decode(errors='replace')}")
    return done.stdout, int(COUNTED.search(done.stderr).group(1)) if counted else 0


def last_trace(output):
    """The lines of the last reply."""
    return output[output.rindex(b"lines "):]


def behind(name, program, pool):
    """Counts a job, and prints what it takes. Whether it is within the limit, and each trace is right."""
    messages, edits = JOBS[name]
    start = network() + messages
    sessions, anew = [start, [*start, "trace"]], []
    for edit in edits:
        sessions.append([*sessions[-1], edit, "trace"])
        anew.append([*(line for line in sessions[-1] if line != "trace"), "trace"])
    runs = list(pool.map(lambda lines: played(program, lines, True), sessions))
    right = all(last_trace(run[0]) == last_trace(played(program, lines, False)[0]) for run, lines in zip(runs[2:], anew))
    costs = [later[1] - earlier[1] for earlier, later in zip(runs, runs[1:])]
    ratios = [cost / costs[0] for cost in costs[1:]]
    good = right and max(ratios) <= LIMIT
    print(f"{name:11} {costs[0] / 1e6:6.0f} million, then {', '.join(f'{ratio:.2f}' for ratio in ratios)}"
          f"{'' if right else '  another trace'}{'' if good else '  FAILED'}", flush=True)
    return good


def main():
    names = sys.argv[2:] or list(JOBS)
    if len(sys.argv) < 2 or not set(names) <= set(JOBS):
        sys.exit(__doc__)
    program = os.path.abspath(sys.argv[1])
    with ThreadPoolExecutor(os.cpu_count()) as pool:
        good = [behind(name, program, pool) for name in names]
    sys.exit(0 if all(good) else 1)


if __name__ == "__main__":
    main()
