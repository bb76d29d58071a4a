#!/usr/bin/env python3
"""Runs what once took more time or memory than before, in two built programs by turns.

Takes the paths of two built `cobench`, old and new, and the names of jobs (all where none is given):

gone      data sheets under ever new names, given to a node and dropped again, with `cdcf`: of 16 compact objects
many      the same of 4,000 plain entries
again     a data sheet given again under its name with another comment, with `cdcf` behind each
asked     the same with `diag`
plain     the same with a data sheet of 400 plain entries
others    `trace` behind an edit of another data sheet, where that of 126 nodes is 1 MiB of comments
unsorted  `diag` behind a `param`, where 126 nodes have faults of parameters and defaults that can't be read
inhibit   a second `trace` behind another inhibit time, where 126 nodes hold many written values

Prints for each job the medians of the processor's seconds and of the greatest memory of seven runs of each, and the
new ones over the old. Ends with status 1 where the replies differ, or where the new program takes over 1.1 times as
long or over 1.2 times as much memory.
Run it from anywhere, with nothing beside it: bench/beside.py OLD NEW [JOB..]
"""
import os
import statistics
import sys

from measured import session

TURNS = 7
TIME, MEMORY = 1.1, 1.2
NODES = range(1, 127)


def eds(name, lines):
    return [f"eds {name} {len(lines)}", *lines]


def compact():
    """16 compact objects: 4,080 entries in 64 lines."""
    return [line for number in range(16)
            for line in (f"[20{number:02X}]", "ObjectType=8", "DataType=7", "CompactSubObj=254")]


def entries(count):
    return [line for number in range(count) for line in (f"[{0x2000 + number:X}]", "DataType=7")]


def gone(lines, turns):
    script = []
    for turn in range(turns):
        script += [*eds(f"a{turn}", lines), f"node 5 p a{turn}"]
        script += [f"drop-eds a{turn - 1}"] if turn else []
        script += ["cdcf 5"]
    return script


def again(lines, query):
    script = [*eds("a", lines), "node 5 p a"]
    for turn in range(300):
        script += [*eds("a", [f"; {turn}", *lines]), query]
    return script


def others():
    content = ["[1017]", "DataType=6", "DefaultValue=0", "[2000]", "DataType=5", "AccessType=rw", "DefaultValue=1"]
    script = [*eds("a", [*content, *[";" + "x" * 1030] * 1000]), *(f"node {node} n{node} a" for node in NODES), "horizon 1000"]
    for turn in range(100):
        script += [*eds("o", [f"; {turn}"]), "trace"]
    return script


def unsorted(parameters, defaults):
    sheet = [line for number in range(defaults)
             for line in (f"[{0x2000 + number:X}]", "DataType=5", "DefaultValue=zz")]
    script = [*eds("a", sheet), *(f"node {node} n{node} a" for node in NODES)]
    script += [f"param {node} {0x3000 + number:X} 0 1" for node in NODES for number in range(parameters)]
    for turn in range(10):
        script += [f"param 5 3000 0 {turn}", "diag"]
    return script


def drive():
    """A drive: a heartbeat, four PDOs each way with eight entries, and 72 settings."""
    sheet = ["[1005]", "DataType=7", "DefaultValue=0x80", "[1017]", "DataType=6", "AccessType=rw", "DefaultValue=0"]
    for number in range(4):
        for first, kind in ((0x1400, 5), (0x1800, 5)):
            sheet += [f"[{first + number:X}]", "ObjectType=9", "SubNumber=4"]
            sheet += [f"[{first + number:X}sub0]", "DataType=5", "DefaultValue=5"]
            sheet += [f"[{first + number:X}sub1]", "DataType=7", "AccessType=rw", "DefaultValue=0x80000000"]
            sheet += [f"[{first + number:X}sub2]", "DataType=5", "AccessType=rw", "DefaultValue=255"]
            sheet += [f"[{first + number:X}sub3]", "DataType=6", "AccessType=rw", "DefaultValue=0"]
            sheet += [f"[{first + number:X}sub5]", "DataType=6", "AccessType=rw", "DefaultValue=0"]
        for first in (0x1600, 0x1A00):
            sheet += [f"[{first + number:X}]", "ObjectType=9", "SubNumber=9",
                      f"[{first + number:X}sub0]", "DataType=5", "AccessType=rw", "DefaultValue=0"]
            for sub in range(1, 9):
                sheet += [f"[{first + number:X}sub{sub:X}]", "DataType=7", "AccessType=rw", "DefaultValue=0"]
    for number in range(72):
        sheet += [f"[{0x2000 + number:X}]", "DataType=6", "AccessType=rw", "DefaultValue=0"]
    for index, access in ((0x6000, "rwr"), (0x6001, "rww")):
        sheet += [f"[{index:X}]", "DataType=6", f"AccessType={access}", "PDOMapping=1", "DefaultValue=0"]
    return sheet


def inhibit(sender):
    taker = sender % 126 + 1
    script = [*eds("a", drive()), *(f"node {node} n{node} a" for node in NODES), "manager 127 10000 0 500", "horizon 10000000"]
    script += [f"param {node} 1017 0 100" for node in NODES]
    script += [f"param {node} {0x2000 + number:X} 0 {number + 1}" for node in NODES for number in range(72)]
    message = f"message m0 {sender} 1 255 {{}} 50 0"
    script += [message.format(10), "source m0 1 6000 0", f"sink m0 1 {taker} 6001 0", "trace", message.format(20), "trace"]
    return script


JOBS = {
    "gone": lambda: gone(compact(), 1000),
    "many": lambda: gone(entries(4000), 100),
    "again": lambda: again(compact(), "cdcf 5"),
    "asked": lambda: again(compact(), "diag"),
    "plain": lambda: again(entries(400), "cdcf 5"),
    "others": others,
    "unsorted": lambda: unsorted(100, 2),
    "inhibit": lambda: inhibit(1),
}


def medians(runs):
    return statistics.median(run.seconds for run in runs), statistics.median(run.memory for run in runs)


def beside(name, programs):
    """Runs a job in both by turns, and prints what each takes. Whether the new one takes no more than it may."""
    lines = ["\n".join(JOBS[name]()).encode(), b"\n"]
    runs = [[], []]
    for turn in range(TURNS):
        for which in ((0, 1) if turn % 2 == 0 else (1, 0)):
            runs[which].append(session(programs[which], lines))
    (old, less), (new, more) = map(medians, runs)
    same = runs[0][0].written == runs[1][0].written
    good = same and new <= TIME * old and more <= MEMORY * less
    print(f"{name:9} {old:7.3f} {new:7.3f} s {new / old:5.2f}   {less / (1 << 20):7.1f} {more / (1 << 20):7.1f} MiB {more / less:5.2f}"
          f"{'' if same else '  replies differ'}{'' if good else '  FAILED'}", flush=True)
    return good


def main():
    names = sys.argv[3:] or list(JOBS)
    if len(sys.argv) < 3 or not set(names) <= set(JOBS):
        sys.exit(__doc__)
    programs = [os.path.abspath(path) for path in sys.argv[1:3]]
    sys.exit(0 if all([beside(name, programs) for name in names]) else 1)


if __name__ == "__main__":
    main()
