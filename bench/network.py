#!/usr/bin/env python3
"""Times a session over a whole network, and takes its peak memory.

Takes the path of the built program, and runs it over one script on its standard input: two EDS of
65,536 lines and nearly 1 MiB, one with 4,000 entries and a PDO each way, one with 2,900 and 125 PDOs
each way; 125 nodes of the first and a controller of the second; 4,096 parameters of one node and 100
of each other; a message from the controller to each node, and one back; `dcf` and `cdcf` of each
node, `diag`, and `project`. With the word `plain` behind the path there are no messages, and all nodes
are of one EDS without PDOs.

Prints the seconds by the clock and of the processor, and the peak memory. Asserts under 10 seconds
of the processor and at most 512 MiB, and the replies: the heads of all, and the lines of `diag` and
`project`. Run it from anywhere: bench/network.py crates/cobench/out/cobench
"""
import os
import sys

from measured import session

LINES = 65536
ENTRIES = 4000
MORE_ENTRIES = 2900
NODES = 126
CONTROLLER = 126
MOST = 4096
FEW = 100
SECONDS = 10
MEMORY = 512 << 20


def entry(index, sub, kind, default):
    return [b"[%04Xsub%X]\n" % (index, sub), b"DataType=%d\n" % kind, b"DefaultValue=%s\n" % default]


def pdo(communication, cob):
    """A PDO that carries one entry: 4 entries of three lines, all of which its message writes."""
    mapping = communication + 0x200
    return (entry(communication, 1, 7, cob) + entry(communication, 2, 5, b"255")
            + entry(mapping, 0, 5, b"0") + entry(mapping, 1, 7, b"0"))


def text(entries, pdos):
    """The lines of the EDS: each entry is an UNSIGNED16 of six lines, which the PDOs can carry where
    there are some; comments fill the text."""
    lines = []
    for number in range(pdos):
        lines += pdo(0x1400 + number, b"$NODEID+0x80000200") + pdo(0x1800 + number, b"$NODEID+0xC0000180")
    for number in range(entries):
        lines += [b"[%04X]\n" % (0x2000 + number), b"ParameterName=Value %d\n" % number,
                  b"DataType=0x0006\n", b"AccessType=rw\n", b"DefaultValue=0\n",
                  b"PDOMapping=1\n" if pdos else b"LowLimit=0\n"]
    lines += [b";2345678901234\n"] * (LINES - len(lines))
    return lines


def parameters(node):
    """The commands of a node's parameters, as `project` prints them.

    The most are of all entries, the others of objects that the EDS doesn't have."""
    count = MOST if node == 1 else FEW
    return [b"param %d %04X 00 %d\n" % (node, 0x2000 + number, number) for number in range(count)]


def messages():
    """The commands of the messages, as `project` prints them: their names stand in order."""
    lines = []
    for node in range(1, CONTROLLER):
        lines += [b"message from%03d %d 1 255 0 0 000\n" % (node, node), b"source from%03d 1 2000 00\n" % node,
                  b"sink from%03d 1 %d %04X 00\n" % (node, CONTROLLER, 0x2000 + node)]
    for node in range(1, CONTROLLER):
        lines += [b"message to%03d %d %d 255 0 0 %03X\n" % (node, CONTROLLER, node, 0x200 + node),
                  b"source to%03d 1 %04X 00\n" % (node, 0x2000 + node), b"sink to%03d 1 %d 2001 00\n" % (node, node)]
    return lines


def network(linked):
    """The commands that make the network, as `project` prints them, and the number of edits."""
    settings = [b"bitrate 1000\n", b"horizon 1000000\n", b"manager 127 0 0 500\n"]
    texts = [b"eds a %d\n" % LINES, *text(ENTRIES, 1 if linked else 0)]
    if linked:
        texts += [b"eds b %d\n" % LINES, *text(MORE_ENTRIES, CONTROLLER - 1)]
    nodes = [b"node %d n%d %s\n" % (node, node, b"b" if linked and node == CONTROLLER else b"a") for node in range(1, NODES + 1)]
    params = [line for node in range(1, NODES + 1) for line in parameters(node)]
    links = messages() if linked else []
    edits = len(settings) + (2 if linked else 1) + len(nodes) + len(params) + len(links)
    return [*settings, *texts, *nodes, *params, *links], edits


def heads(node, linked):
    """The first lines of the replies to `dcf` and `cdcf`.

    The DCF has the entries' lines, one for each entry that is written and four of commissioning. The
    concise DCF has 4 bytes, 9 for each parameter and 57 for each PDO, printed 16 a line."""
    is_controller = linked and node == CONTROLLER
    entries = MORE_ENTRIES if is_controller else ENTRIES
    pdos = 2 * (CONTROLLER - 1 if is_controller else 1) if linked else 0
    written = min(len(parameters(node)), entries)
    lines = 6 * entries + 12 * pdos + written + 4 * pdos + 4
    return [b"lines %d" % lines, b"lines %d" % -(-(4 + 9 * written + 57 * pdos) // 16)]


def missing():
    """The lines of `diag`: the parameters of entries that the first node doesn't have."""
    return [b"E01 param 1 %04X 00" % (0x2000 + number) for number in range(ENTRIES, MOST)]


def is_right(replies, edits, commands, linked):
    """Whether the replies have these heads, `diag` prints what is wrong and `project` the commands."""
    if replies[:edits] != [b"ok"] * edits:
        return False
    at = edits
    for node in range(1, NODES + 1):
        for head in heads(node, linked):
            if replies[at:at + 1] != [head]:
                return False
            at += 1 + int(head[6:])
    want = [line[:-1] for line in commands]
    wrong = missing()
    return replies[at:] == [b"lines %d" % len(wrong), *wrong, b"lines %d" % len(want), *want]


def main():
    if len(sys.argv) not in (2, 3) or sys.argv[2:] not in ([], ["plain"]):
        sys.exit("usage: network.py PROGRAM [plain]")
    linked = len(sys.argv) == 2
    program = os.path.abspath(sys.argv[1])
    commands, edits = network(linked)
    queries = [b"dcf %d\ncdcf %d\n" % (node, node) for node in range(1, NODES + 1)]
    seconds, memory, written = session(program, [*commands, *queries, b"diag\n", b"project\n"])
    replies = written.split(b"\n")[:-1]
    right = is_right(replies, edits, commands, linked)
    is_good = right and seconds < SECONDS and memory <= MEMORY
    print(f"network {seconds:6.2f} s, {memory / (1 << 20):6.1f} MiB; replies {'right' if right else 'wrong'}"
          f"{'' if is_good else '  FAILED'}")
    sys.exit(0 if is_good else 1)


if __name__ == "__main__":
    main()
