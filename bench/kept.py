#!/usr/bin/env python3
"""Times edits and queries by turns, where nearly all that is kept stays as it is.

Takes the path of the built program, or of two: then it prints the seconds of both side by side. Runs
each script twice, with the turns and without, and prints the difference for one turn:

  files      `param 5` and `dcf 5`, 126 nodes of an EDS of 60,000 lines
  diag       `param 5` and `diag`, 126 nodes of a drive's EDS of 1,603 lines
  sheet      the same with 126 nodes of examples/servo_drive.eds, whose defaults are formulas of the node where vendors
             write them so
  event      an event and `diag`, the same network
  message    a message and `diag`, the same network
  elsewhere  `param 5` and `dcf 7`, the network of `files`
  dcf, cdcf, listed
             `dcf 5`, `cdcf 5` and `diag` again and again with no edit between; the node has 4,000 parameters,
             and for `listed` they are all wrong. Beside it a plain write of the same bytes by this script

With the word `sizes` behind the program it prints the turns of `elsewhere` over more and more nodes, entries and
messages instead: they don't grow.

Prints the peak memory too. Run it from anywhere: bench/kept.py crates/cobench/out/cobench
"""
import os
import subprocess
import sys
import tempfile
import time

from measured import session

TURNS = 200
NODES = 126
MESSAGE = [b"message m 5 1 255 0 0 0", b"source m 1 6041 0", b"sink m 1 6 6040 0"]


def big():
    """An EDS of 60,000 lines: 4,000 entries of six lines each, and comments."""
    lines = []
    for number in range(4000):
        lines += [b"[%04X]" % (0x2000 + number), b"ParameterName=Value %d" % number, b"DataType=0x0006",
                  b"AccessType=rw", b"DefaultValue=0", b"LowLimit=0"]
    return lines + [b";2345678901234"] * (60000 - len(lines))


def drive():
    """An EDS of 1,603 lines: 200 entries of eight lines each, and three more."""
    lines = [b"[1000]", b"DataType=7", b"AccessType=ro"]
    for number in range(200):
        lines += [b"[%04X]" % (0x2000 + number), b"ParameterName=Value %d" % number, b"ObjectType=7",
                  b"DataType=0x0006", b"AccessType=rw", b"DefaultValue=0", b"LowLimit=0", b"HighLimit=60000"]
    return lines


def example():
    """The data sheet of the example, as a vendor writes it."""
    path = os.path.join(os.path.dirname(os.path.abspath(__file__)), "..", "examples", "servo_drive.eds")
    with open(path, "rb") as file:
        return file.read().splitlines()


def network(eds, nodes=NODES):
    lines = [b"eds e %d" % len(eds)] + eds
    return lines + [b"node %d n%d e" % (node, node) for node in range(1, nodes + 1)]


def param(turn):
    return b"param 5 2000 0 %d" % (turn % 1000)


def params(value):
    """4,000 parameters of node 5."""
    return [b"param 5 %X 0 %s" % (0x2000 + number, value) for number in range(4000)]


def scripts():
    """Names, the commands before the turns, and those of a turn."""
    return [
        ("files", network(big()) + [b"dcf 5"], lambda turn: [param(turn), b"dcf 5"]),
        ("elsewhere", network(big()) + [b"dcf 5", b"dcf 7"], lambda turn: [param(turn), b"dcf 7"]),
        ("diag", network(drive()) + [b"diag"], lambda turn: [param(turn), b"diag"]),
        ("sheet", network(example()) + [b"diag"], lambda turn: [b"param 5 1017 0 %d" % (turn + 1), b"diag"]),
        ("event", network(example()) + [b"diag"], lambda turn: [b"event 1 %d set 5 1017 0 9" % turn, b"diag"]),
        ("message", network(example()) + MESSAGE + [b"diag"],
         lambda turn: [b"message m 5 1 255 0 %d 0" % turn, b"diag"]),
    ]


def repeated():
    """Names, the commands before the turns, and a query that is asked again."""
    return [
        ("dcf", network(big()) + params(b"7") + [b"dcf 5"], b"dcf 5"),
        ("cdcf", network(big()) + params(b"7") + [b"cdcf 5"], b"cdcf 5"),
        ("listed", network(big()) + params(b"-7") + [b"diag"], b"diag"),
    ]


def messages(count):
    return [line for number in range(count) for line in (
        b"message m%d %d %d 255 0 0 0" % (number, number % 100 + 1, number // 100 + 1),
        b"source m%d 1 2000 0" % number, b"sink m%d 1 %d 2001 0" % (number, (number + 1) % 100 + 1))]


def sized():
    """Names and networks of more and more nodes, entries and messages."""
    eds = big()
    for nodes in (16, 63, 126):
        yield "%d nodes" % nodes, network(eds, nodes)
    for entries in (500, 2000, 4000):
        yield "%d entries" % entries, network(eds[:6 * entries])
    for count in (0, 250, 1000):
        yield "%d messages" % count, network(drive()) + messages(count)


def seconds(program, lines):
    """The seconds of the processor, and the peak of memory in KiB."""
    took, memory, _written = session(program, [b"\n".join(lines), b"\n"])
    return took, memory // 1024


def plain_write(reply, turns):
    """The seconds of the processor that this script takes to write the bytes of a reply so many times."""
    with open(os.devnull, "wb", buffering=0) as nowhere, tempfile.TemporaryFile(buffering=0) as file:
        nowhere.write(reply)
        before = time.process_time()
        for _ in range(turns):
            file.seek(0)
            file.write(bytearray(reply))
        return time.process_time() - before


def again(programs):
    for name, before, query in repeated():
        for program in programs:
            first, _ = seconds(program, before)
            whole, memory = seconds(program, before + [query] * TURNS)
            done = subprocess.run([program], input=b"\n".join(before) + b"\n", capture_output=True)
            reply = done.stdout[done.stdout.rindex(b"lines "):]
            print("%-10s %8.3f ms a turn, %7d bytes, whose plain write takes %.3f ms; peak %d MiB  %s"
                  % (name, 1000 * (whole - first) / TURNS, len(reply), 1000 * plain_write(reply, TURNS) / TURNS, memory >> 10, program))


def turns(programs):
    for name, before, turn in scripts():
        lines = [line for number in range(TURNS) for line in turn(number)]
        for program in programs:
            first, _ = seconds(program, before)
            whole, memory = seconds(program, before + lines)
            print("%-10s %8.3f ms a turn, %6.3f s before, peak %d MiB  %s"
                  % (name, 1000 * (whole - first) / TURNS, first, memory >> 10, program))


def sizes(program):
    for name, before in sized():
        lines = [line for number in range(TURNS) for line in (param(number), b"cdcf 7")]
        first, _ = seconds(program, before + [b"cdcf 5", b"cdcf 7"])
        whole, _ = seconds(program, before + [b"cdcf 5", b"cdcf 7"] + lines)
        print("%-14s %8.4f ms a turn, %6.3f s before" % (name, 1000 * (whole - first) / TURNS, first))


def main():
    if len(sys.argv) < 2:
        sys.exit(__doc__)
    if sys.argv[-1] == "sizes":
        sizes(os.path.abspath(sys.argv[1]))
    else:
        programs = [os.path.abspath(program) for program in sys.argv[1:]]
        turns(programs)
        again(programs)


if __name__ == "__main__":
    main()
