#!/usr/bin/env python3
"""Times the plan of the most messages, and the concise DCF of each node by it.

Takes the path of the built program, and runs it over scripts on its standard input: an EDS with 64
BOOLEAN entries and as many PDOs of 64 mapping entries as an EDS of 4,096 entries can have, 126 nodes
of it, and 1,024 messages of 64 sources each, in turn by each node. They differ in the sinks:

    clean   6 nodes take each message whole, so that each node has all its RPDOs: all are clean
    most    nodes take the messages whole, by turns, as far as 64 MiB (67,108,864 bytes) of input
            allow: most find no RPDO

Each is run without queries, and then with `cdcf` of each node. Prints the seconds of the processor
for both and their difference, which is the plan with the files, and the peak memory. Asserts a
difference under 5 seconds, that the edits are taken, and for `clean` that the files are those of all
messages. Run it from anywhere: bench/messages.py crates/cobench/out/cobench
"""
import os
import sys

from measured import session

INPUT = 64 << 20
NODES = 126
MESSAGES = 1024
ROOM = 64
TPDOS = 9
RPDOS = 51
TAKERS = 6
FIRST_COB = 0x181
SECONDS = 5


def entry(index, sub, kind, *lines):
    return [b"[%04Xsub%X]\n" % (index, sub), b"DataType=%d\n" % kind, *lines]


def pdo(object_index):
    """The lines of a PDO: COB-ID, transmission type, and a mapping of 64 entries."""
    mapping = object_index + 0x200
    lines = entry(object_index, 1, 7) + entry(object_index, 2, 5) + entry(mapping, 0, 5)
    for sub in range(1, ROOM + 1):
        lines += entry(mapping, sub, 7)
    return lines


def text():
    lines = []
    for sub in range(1, ROOM + 1):
        lines += entry(0x2000, sub, 1, b"PDOMapping=1\n")
    for number in range(RPDOS):
        lines += pdo(0x1400 + number)
    for number in range(TPDOS):
        lines += pdo(0x1800 + number)
    return lines


def sender(number):
    return number % NODES + 1


def message(number):
    """The commands of a message with its sources."""
    lines = [b"message m%04d %d %d 255 0 0 %03X\n" % (number, sender(number), number // NODES + 1, FIRST_COB + number)]
    lines += [b"source m%04d %d 2000 %02X\n" % (number, position, position) for position in range(1, ROOM + 1)]
    return lines


def sinks(number, node):
    """The commands by which a node takes a message whole."""
    return [b"sink m%04d %d %d 2000 %02X\n" % (number, position, node, position) for position in range(1, ROOM + 1)]


def first_lines():
    lines = text()
    nodes = [b"node %d n%d a\n" % (node, node) for node in range(1, NODES + 1)]
    messages = [line for number in range(MESSAGES) for line in message(number)]
    return [b"eds a %d\n" % len(lines), *lines, *nodes, *messages], 1 + len(nodes) + len(messages)


def least_taken():
    """Which nodes take each message: those that take the fewest so far, so that none has over 51."""
    taken = [0] * (NODES + 1)
    groups = []
    for number in range(MESSAGES):
        nodes = sorted((n for n in range(1, NODES + 1) if n != sender(number)), key=lambda n: (taken[n], n))[:TAKERS]
        for node in nodes:
            taken[node] += 1
        groups.append(nodes)
    return groups


def clean():
    lines, edits = first_lines()
    for number, nodes in enumerate(least_taken()):
        for node in nodes:
            lines += sinks(number, node)
            edits += ROOM
    return lines, edits


def most():
    lines, edits = first_lines()
    queries = sum(len(b"cdcf %d\n" % node) for node in range(1, NODES + 1))
    left = INPUT - queries - sum(map(len, lines))
    for count in range(NODES - 1):
        for number in range(MESSAGES):
            more = sinks(number, (number + 1 + count) % NODES + 1)
            left -= sum(map(len, more))
            if left < 0:
                return lines, edits
            lines += more
            edits += len(more)
    return lines, edits


def run(program, script):
    """The processor's seconds, the peak bytes and the replies of one session."""
    seconds, memory, written = session(program, script)
    return seconds, memory, written.split(b"\n")[:-1]


def whole(groups):
    """The heads of the files where all messages are clean: 4 bytes, and for each PDO its writes.

    Each has 7 bytes and its value: the COB-ID twice (4), the type (1), the count twice (1), and 64
    mapping entries (4). They are printed 16 bytes a line."""
    bytes_of_pdo = 2 * 11 + 8 + 2 * 8 + ROOM * 11
    heads = []
    for node in range(1, NODES + 1):
        sent = sum(sender(number) == node for number in range(MESSAGES))
        taken = sum(node in nodes for nodes in groups)
        heads.append(b"lines %d" % -(-(4 + (sent + taken) * bytes_of_pdo) // 16))
    return heads


def is_right(replies, edits, heads):
    if replies[:edits] != [b"ok"] * edits:
        return False
    at = edits
    for head in heads:
        if at >= len(replies) or head is not None and replies[at] != head:
            return False
        at += 1 + int(replies[at][6:])
    return at == len(replies)


def main():
    if len(sys.argv) != 2:
        sys.exit("usage: messages.py PROGRAM")
    program = os.path.abspath(sys.argv[1])
    queries = [b"cdcf %d\n" % node for node in range(1, NODES + 1)]
    failed = False
    for shape in [clean, most]:
        lines, edits = shape()
        heads = whole(least_taken()) if shape is clean else [None] * NODES
        before, _, taken = run(program, lines)
        after, memory, replies = run(program, [*lines, *queries])
        right = taken == [b"ok"] * edits and is_right(replies, edits, heads)
        is_good = right and after - before < SECONDS
        failed = failed or not is_good
        print(f"{shape.__name__:6} {sum(map(len, lines)) / (1 << 20):5.1f} MiB, {edits:8} edits: {before:6.2f} s, with all files {after:6.2f} s, "
              f"the plan and the files {after - before:6.2f} s; {memory / (1 << 20):7.1f} MiB; replies {'right' if right else 'wrong'}"
              f"{'' if is_good else '  FAILED'}")
    sys.exit(1 if failed else 0)


if __name__ == "__main__":
    main()
