#!/usr/bin/env python3
"""Times the trace of 126 nodes by the size of their data sheet, and takes the memory of the windows that are kept.

Takes the path of the built program, and runs it over networks of 126 nodes of one data sheet, of 200 entries
and of 4,096, with a heartbeat each 100 ms, a SYNC each millisecond and an event in the middle of each window
of ten milliseconds that sets an entry of one node: to five seconds and to ten, without a query and with `trace`.

Prints for each data sheet the seconds of the processor that the trace to ten seconds takes, its peak memory,
and how much memory each window behind the fifth second takes (its lines and the reply among it). Ends with
status 1 where a reply is wrong, or where a window of the large data sheet takes over 1.2 times as much as one
of the small one.
Run it from anywhere: bench/sheets.py crates/cobench/out/cobench
"""
import os
import sys

from measured import session

NODES = 126
WINDOW = 10_000
SHORT, LONG = 5_000_000, 10_000_000
SHEETS = (200, 4_096)
MOST = 1.2


def sheet(entries):
    """The lines of a data sheet of so many entries: one is 1017h, the others are of a byte each."""
    lines, left, index = ["[1017]", "DataType=6", "DefaultValue=100"], entries - 1, 0x2000
    while left:
        count = min(left, 255)
        lines += [f"[{index:X}]", "ObjectType=9", "DataType=5", f"CompactSubObj={count - 1}"]
        left, index = left - count, index + 1
    return lines


def network(entries, horizon):
    lines = sheet(entries)
    nodes = [f"node {number} n{number} a" for number in range(1, NODES + 1)]
    events = [f"event {window + 1} {WINDOW * window + WINDOW // 2} set {1 + window % NODES} 2000 {1 + window % 100:X} {window % 256}"
              for window in range(horizon // WINDOW)]
    return [f"eds a {len(lines)}", *lines, *nodes, "manager 127 1000 100 500", f"horizon {horizon}", *events]


def run(program, lines):
    """The processor's seconds, the peak memory in bytes, and the replies of one session."""
    seconds, memory, printed = session(program, ["\n".join(lines).encode(), b"\n"])
    if b"refused " in printed:
        sys.exit(f"{program} refused a command")
    return seconds, memory, printed


def measure(program, entries):
    bare = run(program, network(entries, LONG))[0]
    short = run(program, network(entries, SHORT) + ["trace"])[1]
    seconds, long, printed = run(program, network(entries, LONG) + ["trace"])
    window = (long - short) / ((LONG - SHORT) / WINDOW)
    told = printed[printed.index(b"lines "):]
    print(f"{entries:5} entries  {seconds - bare:.2f} s, {long / (1 << 20):.0f} MiB; {window:.0f} bytes a window; {told.count(10) - 1} lines")
    return window, told


def main():
    if len(sys.argv) != 2:
        sys.exit(__doc__)
    program = os.path.abspath(sys.argv[1])
    (small, told), (large, other) = (measure(program, entries) for entries in SHEETS)
    sys.exit(0 if told == other and large <= MOST * small else 1)


if __name__ == "__main__":
    main()
