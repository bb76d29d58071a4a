#!/usr/bin/env python3
"""Times the trace of a network of 126 nodes, an instant at each due moment, and takes its peak memory.

Takes the path of the built program, and runs it over scripts on its standard input, at 1000 kbit/s and
to a horizon of 1,000,000 microseconds (`long`: 10,000,000):

    quiet   126 nodes without writes: each boots, is started, and then nothing is due
    busy    126 nodes of 30 parameters each, and a heartbeat each 100 ms
    synced  126 nodes, a heartbeat each 100 ms, a SYNC each millisecond, 16 messages at each second one,
            each to the next node, and an event each 37 ms that changes a value of one
    long    the same for ten seconds

Each is run without a query, and then with `trace`. Prints the seconds of the processor for both and
their difference, and the peak memory. Asserts a difference under 60 seconds and at most 64 MiB, and of
the replies: that the edits are taken, that every node is configured, and but for `busy` the number of
lines and the last one.
Run it from anywhere: bench/trace.py crates/cobench/out/cobench
"""
import os
import sys

from measured import session

NODES = 126
ENTRIES = 30
MESSAGES = 16
SECONDS = 60
MEMORY = 64 << 20

# The scripts with messages, and how far they run.
MESSAGES_TO = {"synced": 1_000_000, "long": 10_000_000}

# The number of lines, and the last one.
QUIET = 3 * NODES + 1, b"%010d 77F [1] 00" % (55 + 118 * NODES)
SYNCED = 10680, b"0000999957 73E [1] 05"
LONG = 103110, b"0009999957 73E [1] 05"

# One TPDO and one RPDO, off, and values for them.
PDOS = b"""[1400sub1]
DataType=7
DefaultValue=$NODEID+0x80000200
[1400sub2]
DataType=5
[1600]
ObjectType=9
DataType=7
CompactSubObj=8
[1600sub0]
DataType=5
[1800sub1]
DataType=7
DefaultValue=$NODEID+0xC0000180
[1800sub2]
DataType=5
[1A00]
ObjectType=9
DataType=7
CompactSubObj=8
[1A00sub0]
DataType=5
[6040]
DataType=6
PDOMapping=1
[6041]
DataType=6
PDOMapping=1
[6064]
DataType=4
PDOMapping=1
[607A]
DataType=4
PDOMapping=1
"""


def text(kind):
    lines = [b"[1017]\n", b"DataType=6\n"]
    for number in range(ENTRIES):
        lines += [b"[%04X]\n" % (0x2000 + number), b"DataType=6\n"]
    return lines + PDOS.splitlines(True) if kind in MESSAGES_TO else lines


def messages(end):
    edits = [b"horizon %d\n" % end, b"manager 127 1000 100 500\n"]
    for k in range(1, MESSAGES + 1):
        edits += [b"message m%02d %d 1 2 0 0 0\n" % (k, k), b"source m%02d 1 6041 0\n" % k, b"source m%02d 2 6064 0\n" % k]
        edits += [b"sink m%02d 1 %d 6040 0\n" % (k, k + 1), b"sink m%02d 2 %d 607A 0\n" % (k, k + 1)]
    for k, time in enumerate(range(400_000, end, 37_000), 1):
        edits.append(b"event %d %d set %d 6064 0 %d\n" % (k, time, 1 + k % MESSAGES, 11 * k))
    return edits


def script(kind):
    """The lines, and the number of edits."""
    lines = text(kind)
    edits = [b"node %d n%d a\n" % (node, node) for node in range(1, NODES + 1)]
    for node in range(1, NODES + 1):
        if kind != "quiet":
            edits.append(b"param %d 1017 0 100\n" % node)
        if kind == "busy":
            edits += [b"param %d %04X 0 %d\n" % (node, 0x2000 + number, number) for number in range(1, ENTRIES)]
    if kind in MESSAGES_TO:
        edits += messages(MESSAGES_TO[kind])
    return [b"eds a %d\n" % len(lines), *lines, *edits], 1 + len(edits)


def run(program, lines):
    """The processor's seconds, the peak bytes and the replies of one session."""
    seconds, memory, written = session(program, lines)
    return seconds, memory, written.split(b"\n")[:-1]


def is_right(replies, edits, kind):
    """Quiet: a boot-up, a note and a start for each node, and the manager's boot-up behind them.

    Node k boots up at 55 + 118 (k - 1) and is started 63 later, since starts have the least identifier.
    What is awaited of `synced` and `long` is by the plain program (reference/cobench)."""
    lines = replies[edits + 1:]
    configured = sum(line.endswith(b" configured") for line in lines)
    if replies[:edits] != [b"ok"] * edits or replies[edits] != b"lines %d" % len(lines) or configured != NODES:
        return False
    awaited = {"quiet": QUIET, "synced": SYNCED, "long": LONG}
    return kind not in awaited or awaited[kind] == (len(lines), lines[-1])


def main():
    if len(sys.argv) != 2:
        sys.exit("usage: trace.py PROGRAM")
    program = os.path.abspath(sys.argv[1])
    failed = False
    for kind in ("quiet", "busy", "synced", "long"):
        lines, edits = script(kind)
        before, _, taken = run(program, lines)
        after, memory, replies = run(program, [*lines, b"trace\n"])
        right = taken == [b"ok"] * edits and is_right(replies, edits, kind)
        is_good = right and after - before < SECONDS and memory <= MEMORY
        failed = failed or not is_good
        print(f"{kind:6} {edits:6} edits: {before:6.2f} s, with `trace` {after:6.2f} s; {len(replies) - edits - 1} lines; "
              f"{memory / (1 << 20):6.1f} MiB; replies {'right' if right else 'wrong'}{'' if is_good else '  FAILED'}")
    sys.exit(1 if failed else 0)


if __name__ == "__main__":
    main()
