#!/usr/bin/env python3
"""Counts the growths of memory that what is shared must not take.

Takes the path of the built program, and names of what to count, or none for both:

  copies    126 nodes that have booted and do nothing: a trace to two seconds and one to one second. Each window
            of ten milliseconds more begins with a copy of the bus: fewer growths than nodes
  entries   a node of an EDS of 200 entries, each written by a parameter: a session that asks twice for the trace
            of its first window, and one that asks once. The second trace: fewer growths than entries

Prints what was counted, and ends with status 1 where it isn't fewer. Wants gcc.
Run it from anywhere: bench/growths.py crates/cobench/out/cobench
"""
import memory

NODES = 126
ENTRIES = 200
WINDOWS = 100


def quiet(windows):
    nodes = [f"node {number} n{number} a" for number in range(1, NODES + 1)]
    return ["eds a 2", "[1017]", "DataType=6", *nodes, "manager 127 0 0 500", f"horizon {10_000 * windows}", "trace"]


def written(traces):
    text = ["[2000]", "ObjectType=8", "DataType=5", f"CompactSubObj={ENTRIES}"]
    params = [f"param 5 2000 {sub:X} 1" for sub in range(1, ENTRIES + 1)]
    return ["eds a 4", *text, "node 5 n a", "horizon 0", *params, *["trace"] * traces]


def growths(program, library, lines):
    return memory.run_whole(program, "\n".join(lines).encode() + b"\n", library)[1]


def check_copies(program, library):
    """Whether a window takes fewer growths than there are nodes, and how many."""
    more = growths(program, library, quiet(2 * WINDOWS)) - growths(program, library, quiet(WINDOWS))
    return more < NODES * WINDOWS, f"{more / WINDOWS:.1f} growths for a window of {NODES} nodes"


def check_entries(program, library):
    """Whether a second trace takes fewer growths than there are entries, and how many."""
    second = growths(program, library, written(2)) - growths(program, library, written(1))
    return second < ENTRIES, f"{second} growths for a second trace of {ENTRIES} entries written"


COUNTS = {"copies": check_copies, "entries": check_entries}


def check(program, name, library):
    return COUNTS[name](program, library)


if __name__ == "__main__":
    memory.main(__doc__, check, COUNTS)
