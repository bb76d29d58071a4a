#!/usr/bin/env python3
"""Times the diagnostics of the largest project that the limits allow, and takes the peak memory.

Takes the path of the built program, and runs it over one script of nearly 64 MiB on its standard
input: 64 EDS of 65,536 lines with 4,096 entries each, PDOs and 127 heartbeat consumers among them;
126 nodes of them; 4,096 parameters of each of the first 10; and 1,024 messages, each with its source
and a sink, of which 512 are sent by node 126 and the others by each node in turn. It is run without
a query, and then with `diag` at its end, once over texts that are used whole and once over texts in
which each line that describes nothing is skipped with a warning.

Prints the seconds of the processor for both and their difference, which is the reading of all texts,
the plan and the diagnostics, and the peak memory. Asserts a difference under 30 seconds, at most
2 GiB, that the edits are taken, and how many lines the reply has of each code.
Run it from anywhere: bench/diagnostics.py crates/cobench/out/cobench
"""
import os
import sys
from collections import Counter

from measured import session

TEXTS = 64
LINES = 65536
ENTRIES = 4096
NODES = 126
SENDER = 126
MESSAGES = 1024
PARAMETERS = 4096
FULL = 10
CONSUMERS = 127
PDOS = 127
FIRST = 0x2000
INPUT = 64 << 20
SECONDS = 30
MEMORY = 2 << 30


def entry(index, sub, kind, *lines):
    return [b"[%Xsub%X]\n" % (index, sub), b"DataType=%d\n" % kind, *lines]


def consumers():
    """Sub-index k waits for node k, which has no producer time, with a consumer time of 100 ms."""
    lines = []
    for sub in range(1, CONSUMERS + 1):
        lines += entry(0x1016, sub, 7, b"DefaultValue=0x%X\n" % (sub << 16 | 100))
    return lines


def pdos():
    """TPDOs and RPDOs with room for one entry, all of them off."""
    lines = []
    for number in range(PDOS):
        for communication in (0x1400 + number, 0x1800 + number):
            lines += entry(communication, 1, 7, b"DefaultValue=0x80000000\n") + entry(communication, 2, 5)
            lines += entry(communication + 0x200, 0, 5) + entry(communication + 0x200, 1, 7)
    return lines


def text(filler):
    """The lines of an EDS: consumers, PDOs, and as many UNSIGNED8 that PDOs carry as there can be."""
    lines = consumers() + pdos()
    left = ENTRIES - CONSUMERS - 8 * PDOS
    for number in range(left):
        lines += [b"[%X]\n" % (FIRST + number), b"DataType=5\n", b"PDOMapping=1\n"]
    return lines + [filler] * (LINES - len(lines)), left


def sender(number):
    return SENDER if number < 512 else (number - 512) % 125 + 1


def message(number, tpdos):
    """A message with its source and a sink at the next node; its TPDO is the next of its sender."""
    node = sender(number)
    tpdos[node] += 1
    taker = node % NODES + 1
    return [b"message m%04d %d %d 255 0 0 0\n" % (number, node, tpdos[node]),
            b"source m%04d 1 %X 0\n" % (number, FIRST), b"sink m%04d 1 %d %X 0\n" % (number, taker, FIRST + 1)]


def script(filler):
    lines, entries = text(filler)
    commands, edits = [], 0
    for number in range(TEXTS):
        commands += [b"eds t%d %d\n" % (number, LINES), *lines]
    nodes = [b"node %d n%d t%d\n" % (node, node, node % TEXTS) for node in range(1, NODES + 1)]
    params = [b"param %d %X 0 300\n" % (node, FIRST + number) for node in range(1, FULL + 1) for number in range(PARAMETERS)]
    tpdos = Counter()
    links = [line for number in range(MESSAGES) for line in message(number, tpdos)]
    commands += nodes + params + links
    return commands, TEXTS + len(nodes) + len(params) + len(links), entries


def run(program, lines):
    """The processor's seconds, the peak bytes and the replies of one session."""
    seconds, memory, written = session(program, lines)
    return seconds, memory, written.split(b"\n")[:-1]


def expected(entries, skipped):
    """How many lines of each code the rules give.

    Each of the 10 nodes has parameters of all its UNSIGNED8 with a value over 255, and the others of
    entries that aren't there. Every consumer waits for a node without a producer time, or that isn't
    in the project; that of the manager, 127, likewise. Node 126 sends 512 messages, of which those
    past its last TPDO have no objects; the first four have its own identifiers, the next 95 take all
    automatic ones, and the others get none, nor do the 12 fifth messages of other nodes."""
    return {b"E01": FULL * (PARAMETERS - entries), b"E02": FULL * entries, b"E05": 512 - PDOS, b"E13": 512 - 4 - 95 + 12,
            b"W19": NODES * CONSUMERS, b"W20": TEXTS * skipped}


def main():
    if len(sys.argv) != 2:
        sys.exit("usage: diagnostics.py PROGRAM")
    program = os.path.abspath(sys.argv[1])
    failed = False
    for name, filler in [("used", b";23456789012345\n"), ("skipped", b"?23456789012345\n")]:
        commands, edits, entries = script(filler)
        size = sum(map(len, commands))
        assert size <= INPUT, size
        skipped = LINES - len([line for line in text(filler)[0] if line != filler]) if name == "skipped" else 0
        before, _, taken = run(program, commands)
        after, memory, replies = run(program, [*commands, b"diag\n"])
        counts = Counter(line[:3] for line in replies[edits + 1:])
        want = expected(entries, skipped)
        right = taken == [b"ok"] * edits and replies[:edits] == taken and counts == Counter({code: n for code, n in want.items() if n})
        right = right and replies[edits] == b"lines %d" % sum(counts.values())
        is_good = right and after - before < SECONDS and memory <= MEMORY
        failed = failed or not is_good
        print(f"{name:7} {size / (1 << 20):5.1f} MiB, {edits} edits: {before:6.2f} s, with `diag` {after:6.2f} s, of it {after - before:6.2f} s; "
              f"{memory / (1 << 20):7.1f} MiB; {sum(counts.values())} lines {dict(sorted((k.decode(), n) for k, n in counts.items()))}; "
              f"{'right' if right else 'wrong'}{'' if is_good else '  FAILED'}")
    sys.exit(1 if failed else 0)


if __name__ == "__main__":
    main()
