#!/usr/bin/env python3
"""Times sessions, and takes their peak memory.

Builds crates/cobench (which proves it and what it stands on, where that hasn't been done), and runs
it over scripts on its standard input:

    device   an EDS of 65,536 lines with 4,000 objects, a node of it, 1,000 parameters, `dcf`, `cdcf`
    tenth    the same with 6,553 lines, 400 objects and 100 parameters
    params   64 MiB (67,108,864 bytes) of `param` lines for one object of one node

Asserts that `device` takes under 2 seconds and at most 256 MiB, and per line of its script at most
1.5 times as long as `tenth`; that `params` is read at 10 MB/s (10,000,000 bytes) or more, in at most
256 MiB; and the replies, but for the lines that the two queries print, of which it takes the count.
Times are those of the processor, so that other work on the machine disturbs them little. Run it
from anywhere: bench/session.py
"""
import os
import subprocess
import sys

from measured import session

ROOT = os.path.dirname(os.path.dirname(os.path.abspath(__file__)))
CRATE = os.path.join(ROOT, "crates", "cobench")
PROGRAM = os.path.join(CRATE, "out", "cobench")
LINES = 65536
OBJECTS = 4000
PARAMS = 1000
INPUT = 64 << 20
SECONDS = 2
MEMORY = 256 << 20
RATIO = 1.5
BYTES_A_SECOND = 10_000_000
RUNS = 3
ROUNDS = 6


def device(lines, objects, params):
    """A script in pieces, and its replies without the lines that the queries print.

    Each object is an UNSIGNED16 in four lines, of the manufacturer's area; comments fill the text.
    The DCF has the objects' lines, one for each parameter and four of commissioning. The concise
    DCF has 4 bytes and 9 for each parameter, printed 16 a line."""
    text = []
    for number in range(objects):
        text += [b"[%04X]\n" % (0x2000 + number), b"DataType=6\n", b"AccessType=rw\n", b"LowLimit=0\n"]
    script = [b"eds a %d\n" % lines, *text, b";\n" * (lines - len(text)), b"node 5 p a\n"]
    script += [b"param 5 %X 0 0x%04X\n" % (0x2000 + number, number) for number in range(params)]
    script += [b"dcf 5\n", b"cdcf 5\n"]
    dcf = len(text) + params + 4
    cdcf = -(-(4 + 9 * params) // 16)
    want = [b"ok"] * (params + 2) + [b"lines %d" % dcf, b"lines %d" % cdcf]
    return script, want


def params():
    """64 MiB of `param` lines in pieces, filled up with one line of blanks, and their replies."""
    head = b"eds a 2\n[2000]\nDataType=7\nnode 5 p a\n"
    line = b"param 5 2000 0 0x12345678\n"
    count, rest = divmod(INPUT - len(head), len(line))
    many, few = divmod(count, 1000)
    script = [head, *[line * 1000] * many, line * few, b" " * rest]
    return script, b"ok\n" * (count + 2)


def run(script):
    """The processor's seconds, the peak bytes and the replies of one session."""
    return session(PROGRAM, script)


def heads(replies):
    """The replies without the lines that queries print."""
    rest = replies.split(b"\n")[:-1]
    at, found = 0, []
    while at < len(rest):
        found.append(rest[at])
        at += 1 + (int(rest[at][6:]) if rest[at].startswith(b"lines ") else 0)
    return found


def least(scripts, so_far):
    """The least seconds of some runs of each script, in turn, with those so far."""
    for _ in range(RUNS):
        so_far = [min(best, run(script)[0]) for best, script in zip(so_far, scripts)]
    return so_far


def count_lines(script):
    return sum(piece.count(b"\n") for piece in script)


def times(large, small):
    """The seconds of each script, without those of a session of no input, and the time per line of
    the large one as a multiple of that of the small one.

    Other work on the machine can only add to a time, so the least of many runs counts: rounds of
    runs go on until the times lie as they are asked to, or to the last round."""
    lines = count_lines(large) / count_lines(small)
    best = [1e9] * 3
    for _ in range(ROUNDS):
        best = least([large, small, []], best)
        slow, fast = best[0] - best[2], max(best[1] - best[2], 1e-9)
        if slow < SECONDS and slow <= RATIO * lines * fast:
            break
    return slow, fast, slow / fast / lines


def judge(shape, facts, is_good):
    print(f"{shape:7} {facts}{'' if is_good else '  FAILED'}")
    return is_good


def judge_device():
    large, want = device(LINES, OBJECTS, PARAMS)
    small, want_small = device(LINES // 10, OBJECTS // 10, PARAMS // 10)
    _, memory, replies = run(large)
    is_right = heads(replies) == want and heads(run(small)[2]) == want_small
    slow, fast, ratio = times(large, small)
    facts = (f"{slow * 1e3:8.1f} ms, {memory / (1 << 20):6.1f} MiB; a tenth {fast * 1e3:7.1f} ms; "
             f"per line {ratio:4.2f} of it; replies {'right' if is_right else 'wrong'}")
    return judge("device", facts, is_right and slow < SECONDS and memory <= MEMORY and ratio <= RATIO)


def judge_params():
    script, want = params()
    best = 1e9
    for _ in range(ROUNDS):
        seconds, memory, replies = run(script)
        best = min(best, seconds)
        is_right = replies == want
        if not is_right or INPUT >= BYTES_A_SECOND * best:
            break
    rate = INPUT / best
    facts = (f"{best * 1e3:8.1f} ms, {memory / (1 << 20):6.1f} MiB; {rate / 1e6:6.1f} MB/s; "
             f"replies {'right' if is_right else 'wrong'}")
    return judge("params", facts, is_right and memory <= MEMORY and rate >= BYTES_A_SECOND)


def main():
    subprocess.run(["rt", "run"], cwd=CRATE, stdin=subprocess.DEVNULL, check=True,
                   stdout=subprocess.DEVNULL, stderr=subprocess.DEVNULL)
    results = [judge_device(), judge_params()]
    sys.exit(0 if all(results) else 1)


if __name__ == "__main__":
    main()
