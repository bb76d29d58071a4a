#!/usr/bin/env python3
"""Times the reading of INI texts, and takes its peak memory.

Builds crates/checks_files (which proves it and what it stands on, where that hasn't been done), and
has it read texts of 1 MiB (1,048,576 bytes, the longest that is read) and of a tenth of that:

    one      65,536 lines, all pairs of one section
    own      65,536 lines, each the header of a section of its own
    pairs    65,536 lines, in turn a header and a pair
    name     pairs of 3 bytes in one section, whose name has 4,000 bytes
    eds      60,000 lines (896,248 bytes), as vendors write them: 7,500 objects and sub-objects of six
             keys each, an empty line after each, lines ended by CR and LF
    letters  65,536 pairs of one section, whose keys are six letters or digits (524,298 bytes)
    chosen   the same with keys that the hash of `indexmap`, where it starts from the number that it
             takes by itself, puts into a 64th of its table

Asserts for each that the large text takes under a second (`eds` at most 25 ms) and at most 64 MiB,
that it takes at most 12 times as long as the small one (but for `pairs`, whose memory outgrows the
caches that other work on the machine uses too: its ratio is printed alone), and that `chosen` takes at
most three times as long as `letters`. Keys can't be chosen so against the hash of today: it starts from
a number that the whole text makes, these keys with it. Times are those of the
processor, so that other work on the machine disturbs them little. Run it from anywhere: bench/ini.py
"""
import itertools
import os
import subprocess
import sys
import tempfile

from measured import session

ROOT = os.path.dirname(os.path.dirname(os.path.abspath(__file__)))
CRATE = os.path.join(ROOT, "crates", "checks_files")
PROGRAM = os.path.join(CRATE, "out", "checks_files")
LARGE = 1 << 20
SMALL = LARGE // 10
MEMORY = 64 << 20
SECONDS = 1
EDS_SECONDS = 0.025
RATIO = 12
CHOSEN_RATIO = 3
RUNS = 15
ROUNDS = 8
FIRST_STATE = 0x243F6A8885A308D3
MULTIPLIER = 0x9E3779B97F4A7C15


def one(size):
    lines = [b"[section123456]\n"]
    lines += [b"k%08d=12345\n" % n for n in range(size // 16)]
    return b"".join(lines)


def own(size):
    return b"".join(b"[section%06d]\n" % n for n in range(size // 16 + 1))


def pairs(size):
    return b"".join(b"[section%06d]\nkey=%011d\n" % (n, n) for n in range(size // 32 + 1))


def name(size):
    return b"[" + b"n" * 4000 + b"]\n" + b"k=\n" * (size // 3)


def eds(size):
    lines = []
    for count in range(7500 * size // LARGE):
        index, sub = 0x2000 + count // 8, count % 8
        lines += [
            b"[%04X]" % index if sub == 0 else b"[%04Xsub%X]" % (index, sub),
            b"ParameterName=Object %05d" % count,
            b"ObjectType=0x7",
            b"DataType=0x0007",
            b"AccessType=rw",
            b"DefaultValue=0",
            b"PDOMapping=0",
            b"",
        ]
    return b"".join(line + b"\r\n" for line in lines)


def folded(a, b):
    """The halves of a product of 128 bits, joined by exclusive or."""
    product = a * b
    return product & (1 << 64) - 1 ^ product >> 64


def hashed_keys():
    """Each key of six letters or digits, with the hash that `indexmap` gives it by itself."""
    keys = [(b"", folded(FIRST_STATE ^ 6, MULTIPLIER ^ 16))]
    for _ in range(6):
        keys = ((key + bytes([byte]), folded(state ^ byte * 0x010101, MULTIPLIER ^ 2))
                for key, state in keys for byte in b"abcdefghijklmnopqrstuvwxyz0123456789")
    return keys


def is_chosen(state):
    """Whether this hash puts a key into the first 64th of a table for 65,536 keys."""
    return (state ^ state >> 32) >> 7 & 63 == 0


def section_of(keys, count):
    return b"[section]\n" + b"".join(key + b"=\n" for key, _ in itertools.islice(keys, count))


def letters(size):
    return section_of(hashed_keys(), size // 16)


def chosen(size):
    return section_of((pair for pair in hashed_keys() if is_chosen(pair[1])), size // 16)


SHAPES = [one, own, pairs, name, eds, letters, chosen]
JUDGED_BY_RATIO = [one, own, name, eds, letters, chosen]


def run(text):
    """The processor's seconds, the peak bytes and the answer of one process that reads the text."""
    with tempfile.NamedTemporaryFile() as file:
        file.write(text)
        file.flush()
        seconds, memory, answer = session(PROGRAM, [], file.name)
    return seconds, memory, answer.decode().strip()


def least(texts, so_far):
    """The least seconds of some runs for each text, in turn, with those so far."""
    for _ in range(RUNS):
        so_far = [min(best, run(text)[0]) for best, text in zip(so_far, texts)]
    return so_far


def times(large, small, rounds):
    """The seconds of reading each text, without those of a process that reads nothing.

    Other work on the machine can only add to a time, so the least of many runs counts: rounds of
    runs go on until the two times lie as they are asked to, or to the last round."""
    best = [1e9] * 3
    for _ in range(rounds):
        best = least([large, small, b""], best)
        slow, fast = best[0] - best[2], max(best[1] - best[2], 1e-9)
        if slow <= RATIO * fast:
            break
    return slow, fast


def limit(shape, seconds):
    """The most seconds that a large text may take, where the texts before it took these."""
    if shape is chosen:
        return CHOSEN_RATIO * seconds[letters]
    return EDS_SECONDS if shape is eds else SECONDS


def main():
    subprocess.run(["rt", "run"], cwd=CRATE, stdin=subprocess.DEVNULL, check=True,
                   stdout=subprocess.DEVNULL, stderr=subprocess.DEVNULL)
    failed = False
    seconds = {}
    print("shape    lines   sections, warnings  ms large  ms small  ratio  MiB large")
    for shape in SHAPES:
        large, small = shape(LARGE)[:LARGE], shape(SMALL)[:SMALL]
        is_judged = shape in JUDGED_BY_RATIO
        slow, fast = times(large, small, ROUNDS if is_judged else 1)
        _, memory, answer = run(large)
        seconds[shape] = slow
        good = slow <= limit(shape, seconds) and memory <= MEMORY and (slow <= RATIO * fast or not is_judged)
        failed = failed or not good
        print(f"{shape.__name__:8} {large.count(10):6}  {answer:>18}  {slow * 1e3:8.2f}  {fast * 1e3:8.2f}"
              f"  {slow / fast:5.1f}  {memory / (1 << 20):9.1f}{'' if good else '  FAILED'}")
    sys.exit(1 if failed else 0)


if __name__ == "__main__":
    main()
