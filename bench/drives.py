#!/usr/bin/env python3
"""Times `diag` and a short `trace` of a network of drives, as one asks them again and again.

Takes the path of the built program, and runs it over 126 nodes of the data sheet
examples/servo_drive.eds with a horizon of 20 ms: without a query, with `diag` twenty times, and with
`trace` twenty times.

Prints the milliseconds of the processor for one query. Asserts under 50 of them for each, and the
replies: no diagnostics, and the lines of a trace, as many as the plain program (reference/cobench) gives.
Run it from anywhere: bench/drives.py crates/cobench/out/cobench
"""
import os
import resource
import subprocess
import sys
import tempfile

HERE = os.path.dirname(os.path.abspath(__file__))
SHEET = os.path.join(HERE, "..", "examples", "servo_drive.eds")
NODES = 126
QUERIES = 20
TRACED = 213
MILLISECONDS = 50


def network():
    """The commands that make the network, and their number."""
    with open(SHEET, "rb") as file:
        sheet = file.read()
    settings = b"bitrate 1000\nhorizon 20000\n"
    nodes = b"".join(b"node %d n%d servo\n" % (node, node) for node in range(1, NODES + 1))
    return b"%seds servo %d\n%s%s" % (settings, sheet.count(b"\n"), sheet, nodes), 3 + NODES


def run(program, script):
    """The processor's seconds and the replies of one session."""
    with tempfile.TemporaryFile() as file, tempfile.TemporaryFile() as output:
        file.write(script)
        file.seek(0)
        before = resource.getrusage(resource.RUSAGE_CHILDREN).ru_utime
        status = subprocess.run([program], stdin=file, stdout=output).returncode
        seconds = resource.getrusage(resource.RUSAGE_CHILDREN).ru_utime - before
        output.seek(0)
        replies = output.read().split(b"\n")[:-1]
    if status != 0:
        sys.exit(f"{program} ended with {status}")
    return seconds, replies


def is_right(replies, edits, lines):
    """Whether the edits are taken, and each query has a reply of so many lines."""
    size = 1 + lines
    heads = replies[edits::size]
    return replies[:edits] == [b"ok"] * edits and len(replies) == edits + QUERIES * size and set(heads) == {b"lines %d" % lines}


def main():
    if len(sys.argv) != 2:
        sys.exit("usage: drives.py PROGRAM")
    program = os.path.abspath(sys.argv[1])
    script, edits = network()
    before, _ = run(program, script)
    failed = False
    for query, lines in ((b"diag", 0), (b"trace", TRACED)):
        after, replies = run(program, script + (query + b"\n") * QUERIES)
        milliseconds = 1000 * (after - before) / QUERIES
        right = is_right(replies, edits, lines)
        is_good = right and milliseconds < MILLISECONDS
        failed = failed or not is_good
        print(f"{query.decode():5} {milliseconds:6.2f} ms; replies {'right' if right else 'wrong'}{'' if is_good else '  FAILED'}")
    sys.exit(1 if failed else 0)


if __name__ == "__main__":
    main()
