#!/usr/bin/env python3
"""Damaged files through each reader of the tools: no fault of cobtool itself, no status but 0, 1, 2, none that takes long.

Bytes, bits, ranges, lines, words and numbers of good files are changed at random, odd words among them. A case is
known by its seed, its reader and its number. The commands run in this process, beside kept replies of cobench.
"""
import argparse
import concurrent.futures
import contextlib
import copy
import datetime
import functools
import io
import os
import random
import re
import signal
import sys
import tempfile

sys.path[:0] = [os.path.dirname(os.path.dirname(os.path.abspath(__file__))), os.path.dirname(os.path.abspath(__file__))]

import good_files
from cobench_tools import main, session
from cobench_tools.logs.source import Log

MOST_SECONDS = 10     # of the processor; by the clock so many times as many, as a machine may do much else
PATIENCE = 12
CASES = 2_000
ODD = [b"9" * 5000, b"0" * 5000, "²".encode(), b"\xb2", b"\0", b"\x1b[2J", b"\xc2\x9b2J", b"1e999", b"-1e-999", b"\r", b"-1", b"+5", b"1_0",
       b"0x", b"0X1g", b"0x" + b"F" * 17, b"18446744073709551616", b"nan", b"inf", b"\xff\xfe", "\u202e".encode(), b"$NODEID",
       b"$NODEID+", b"$nodeid+$nodeid", b"<", b"<none", b"<.", b"#", b"=", b"[", b"]", b"[1A00sub0]", b" " * 5000, b"%s%n", b"{}", b"\"", b"'",
       b"99999999999", b"4294967296", b"65536", b"256", b"128", b"127", b"65", b"0", b"1F", b"\n\n", b"\r\n", b"\t", b"\xef\xbb\xbf", b";",
       b"trace", b"lines 999999999", b"lines 5", b"ok", b"refused 4 Unknown", b"-", b"note", b"00", b"7FF", b"800", b"R", b"E", b"d",
       b"1A00sub", b"8", b"9", b"a" * 5000, b"1." + b"5" * 400, b"eds x 65536", b"--", b"\xed\xb2\x80"]


class TooLong(BaseException):
    """A case that takes longer than it may."""


class Output:
    """What a command writes."""

    def __init__(self):
        self.buffer = io.BytesIO()

    def isatty(self):
        return False

    def text(self):
        return self.buffer.getvalue()


# How files are damaged: each takes chance and the bytes.

def place(dice, data):
    return dice.randrange(len(data) + 1)


def byte(dice, data):
    at = place(dice, data)
    return data[:at] + bytes([dice.randrange(256)]) + data[at + 1:]


def bit(dice, data):
    if not data:
        return data
    at = dice.randrange(len(data))
    return data[:at] + bytes([data[at] ^ 1 << dice.randrange(8)]) + data[at + 1:]


def removed(dice, data):
    at = place(dice, data)
    return data[:at] + data[at + dice.choice((1, 2, 5, 20, 200)):]


def doubled(dice, data):
    at = place(dice, data)
    piece = data[at:at + dice.choice((1, 4, 30, 300))]
    return data[:at] + piece * dice.choice((2, 3, 50)) + data[at + len(piece):]


def inserted(dice, data):
    at = place(dice, data)
    return data[:at] + dice.choice(ODD) + data[at:]


def cut(dice, data):
    return data[:place(dice, data)]


def line(dice, data):
    """A line goes, comes again, or changes places with another."""
    lines = data.split(b"\n")
    one, other = dice.randrange(len(lines)), dice.randrange(len(lines))
    kind = dice.randrange(4)
    if kind == 0:
        del lines[one]
    elif kind == 1:
        lines.insert(other, lines[one])
    elif kind == 2:
        lines[one], lines[other] = lines[other], lines[one]
    else:
        lines[one] = lines[one][:dice.randrange(len(lines[one]) + 1)] + lines[other][dice.randrange(len(lines[other]) + 1):]
    return b"\n".join(lines)


def replaced(dice, data, pattern, words):
    """One of the places of a pattern has another word."""
    found = list(re.finditer(pattern, data))
    if not found:
        return data
    one = dice.choice(found)
    return data[:one.start()] + dice.choice(words) + data[one.end():]


def word(dice, data):
    return replaced(dice, data, rb"[^\s=,\]\[]+", ODD + re.findall(rb"[^\s=,]+", data[:4000]))


def number(dice, data):
    return replaced(dice, data, rb"[0-9A-Fa-f]+", ODD[:30] + [b"%d" % dice.choice((-1, 0, 1, 2, 7, 64, 65, 255, 256, 512, 513, 10 ** 9))])


def ends(dice, data):
    return data.replace(b"\n", dice.choice((b"\r", b"\r\n", b"\n\r", b"\n\n", b"\xe2\x80\xa8")), dice.choice((1, 3, -1)))


DAMAGES = (byte, bit, removed, doubled, inserted, cut, line, line, word, word, word, number, number, number, ends)


def damaged(dice, data):
    for _ in range(dice.choice((1, 1, 1, 2, 3, 6))):
        data = dice.choice(DAMAGES)(dice, data)
    return data


class Reader:
    """Commands that read a file that is damaged.

    name      what it is called
    files     the good files by their names
    victims   those of them that are damaged
    commands  the words of the commands that read them, one of which each case has
    """

    def __init__(self, name, files, victims, commands):
        self.name, self.files, self.victims = name, files, victims
        self.commands = [(words, *work_of(*words)) for words in commands]

    def put(self):
        """Puts the good files into this folder."""
        os.makedirs("files", exist_ok=True)
        for name, data in self.files.items():
            write(name, data)

    def case(self, seed, number):
        """What is wrong with a case, as text, or None; the damaged file stays, and is put back by the next one."""
        dice = random.Random(f"{seed} {self.name} {number}")
        victim = dice.choice(self.victims)
        write(victim, damaged(dice, self.files[victim]))
        words, module, options = dice.choice(self.commands)
        wrong = why_wrong(lambda: module.run(copy.copy(options)))
        if not wrong:
            write(victim, self.files[victim])
        return wrong and f"{' '.join(words)}: {wrong}; damaged.py --seed {seed} --reader {self.name} --case {number}"


class Rows:
    """What reads the frames of a log alone, with no judgement behind it."""

    @staticmethod
    def run(log):
        for _ in Log(log).blocks():
            pass
        return 0


@functools.lru_cache(maxsize=None)
def work_of(command, *words):
    """What runs a command, and the options that it takes; reading its words anew for each case would take longer than the case."""
    if command == "rows":
        return Rows, words[0]
    return main.module_of(command), main.parser_of(command).parse_args(words)


def write(name, data):
    with open(name, "wb") as file:
        file.write(data)


def too_long(number, frame):
    raise TooLong


def why_wrong(work):
    """What is wrong with how a work ends and what it writes, or None."""
    output, faults = Output(), Output()
    before = {number: signal.signal(number, too_long) for number in (signal.SIGPROF, signal.SIGALRM)}
    signal.setitimer(signal.ITIMER_PROF, MOST_SECONDS)
    signal.setitimer(signal.ITIMER_REAL, PATIENCE * MOST_SECONDS)
    try:
        with contextlib.redirect_stdout(output), contextlib.redirect_stderr(faults):
            status = main.ended(work)
    except TooLong:
        return f"over {MOST_SECONDS} s"
    except BaseException as error:
        return f"{type(error).__name__} goes out: {error}"
    finally:
        signal.setitimer(signal.ITIMER_PROF, 0)
        signal.setitimer(signal.ITIMER_REAL, 0)
        for number, handler in before.items():
            signal.signal(number, handler)
    return odd_end(status, output.text(), faults.text())


def odd_end(status, output, faults):
    """What is wrong with a status and what was written, or None."""
    told = faults.decode("utf-8", "replace")
    if "cobtool itself" in told:
        return told.strip()
    if status not in (0, 1, 2):
        return f"status {status}"
    if status == 2 and (output or len(told.splitlines()) != 1 or not told.startswith("cobtool: ")):
        return f"status 2 with {len(output)} bytes and {len(told.splitlines())} lines: {told[:200]}"
    odd = re.search("[\0-\x08\x0b-\x1f\x7f-\x9f\u202a-\u202e\u2028\u2029]", told)
    return f"{odd.group()!r} is shown" if odd else None


# The readers, over kept replies.

def readers():
    """All readers, by name."""
    files = good_files.network()
    return {name: Reader(name, files, victims, commands) for name, victims, commands in good_files.readers(files)}


def keep_replies():
    """Has the replies of cobench kept in this process: to each input those that are given once."""
    kept, asked = {}, session.replies_to

    def replies_to(words, text):
        if text not in kept:
            kept[text] = asked(words, text)
        return kept[text]

    session.replies_to = replies_to


def wrong_cases(name, seed, first, count):
    """What is wrong with some cases of a reader."""
    with tempfile.TemporaryDirectory() as folder:
        start = os.getcwd()
        os.chdir(folder)
        try:
            keep_replies()
            reader = readers()[name]
            reader.put()
            found = [reader.case(seed, number) for number in range(first, first + count)]
            return [each for each in found if each]
        finally:
            os.chdir(start)


def seed_of_the_day():
    """COBTOOL_SEED, else this day."""
    return os.environ.get("COBTOOL_SEED") or datetime.date.today().isoformat()


def main_of_this():
    parser = argparse.ArgumentParser(description=__doc__, formatter_class=argparse.RawDescriptionHelpFormatter)
    parser.add_argument("--seed", default=seed_of_the_day(), help="by which the cases are made; the day, if this doesn't say another")
    parser.add_argument("--cases", type=int, default=CASES, help=f"so many of each reader; {CASES} without it")
    parser.add_argument("--reader", action="append", help="one of the readers, or more; all without it")
    parser.add_argument("--case", type=int, help="this case alone; its file stays in the folder damaged")
    options = parser.parse_args()
    names = options.reader or list(readers())
    if options.case is not None:
        os.makedirs("damaged", exist_ok=True)
        os.chdir("damaged")
        reader = readers()[names[0]]
        reader.put()
        print(reader.case(options.seed, options.case))
        return 0
    part = 500
    jobs = [(name, options.seed, first, min(part, options.cases - first)) for first in range(0, options.cases, part) for name in names]
    wrong = done = 0
    with concurrent.futures.ProcessPoolExecutor() as pool:
        for (_, _, _, count), found in zip(jobs, pool.map(wrong_cases, *zip(*jobs))):
            wrong, done = wrong + len(found), done + count
            print("".join(f"{each}\n" for each in found) + f"seed {options.seed}: {done:,} cases, {wrong} wrong", flush=True)
    return 1 if wrong else 0


if __name__ == "__main__":
    sys.exit(main_of_this())
