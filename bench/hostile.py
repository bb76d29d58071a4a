#!/usr/bin/env python3
"""Runs the built program over input that means it ill, or asks for as much as the limits allow.

Takes the path of the program, and names of kinds, or none for all:

  bytes      each byte 0 to 255 in each place of five commands and of a line of an EDS, one command or block each
  replaced   64 MiB of `eds` blocks of one name, each in the place of the one before, with a `dcf` behind each
  gone       data sheets under ever new names, each given to a node, asked about by `cdcf` and dropped as the next has its
             place: 1,000 of 16 compact objects in at most 32 MiB, 100 of 65,536 lines in at most 200 MiB
  largest    the texts, nodes, parameters and messages of `diagnostics.py`, with a `trace` to a second
  busiest    126 nodes, of which each sends all its TPDOs at each SYNC of a millisecond, and events; to five and
             to ten seconds; with 1 and with 16 TPDOs a node
  crowded    the same with 512 TPDOs a node, each of which is on, to 20 and to 40 milliseconds

and the inputs of worst_inputs.py, which are short beside what they ask for:

  keys       a data sheet of 16,384 keys that somebody chose to fall into one part of a table: at most three times
             as long as one of any keys
  long       16 arrays whose default, and for a `trace` whose limits too, are formulas as long as a line can be, for
             126 nodes: at most three times as long as with formulas of a few digits
  sheets     126 nodes whose data sheet is replaced 100 times, with a `trace` behind each: at most 160 MiB
  events     10,000 events with texts of 500 bytes, one of which changes 200 times, with a `trace` behind each: at
             most 256 MiB
  first      an event of the first moment that changes 3,000 times, with a `trace` behind each: the last 500 turns
             take at most 1.2 times as long as the second 500
  flip       an event that takes one of two forms by turns, 20 times, with a `trace` of ten seconds behind each: a
             turn takes at most 1.2 times as long as the first one
  moved      126 nodes that have a data sheet of 65,536 lines in turn, which is dropped again: at most 1,400 MiB
  unused     63 data sheets of 60,000 lines that no node has: 50 turns of an edit and `diag` take at most a tenth of
             reading them

Prints the seconds of the processor and the peak memory, and asserts that each run ends with status 0, at most 2 GiB,
and what is said at each kind. Where a kind has two sizes, twice the size may take at most three times the seconds.
Of what is compared by time the least of some runs counts.
Run it from anywhere: bench/hostile.py crates/cobench/out/cobench
"""
import contextlib
import importlib.util
import io
import os
import re
import sys

import worst_inputs
from measured import session

MEMORY = 2 << 30
SYNC_US = 1000
NODES = 126
ONE_LINE = re.compile(rb"ok|refused [2-9] [A-Za-z]+|lines \d+")


def run(program, lines):
    """The processor's seconds, the peak of memory in KiB and the replies of one session."""
    seconds, memory, written = session(program, lines)
    return seconds, memory // 1024, written.split(b"\n")[:-1]


def told(name, seconds, kib, good, more=""):
    good = good and kib * 1024 <= MEMORY
    print(f"{name:22} {seconds:7.2f} s {kib / 1024:8.1f} MiB {more}{'' if good else '  FAILED'}", flush=True)
    return good


# ---- bytes

SMALL = [b"[2000]", b"DataType=5", b"[2001]", b"DataType=9"]
COMMANDS = [b"param 5 2001 0 a b", b"event 1 2000 set 5 2000 0 7", b"message m 5 1 255 0 0 0", b"node 6 q e", b"horizon 5000"]


def replies_only(replies):
    """The first line of each reply, or None where a line is none."""
    found, at = [], 0
    while at < len(replies):
        if not ONE_LINE.fullmatch(replies[at]):
            return None
        found.append(replies[at])
        at += 1 + (int(replies[at][6:]) if replies[at].startswith(b"lines ") else 0)
    return found


def each_byte(line):
    return [line[:place] + bytes([byte]) + line[place + 1:] for place in range(len(line)) for byte in range(256)]


def bytes_everywhere(program):
    """Each command has one reply, and what `project` prints at the end is accepted again and printed again."""
    good = True
    start = [b"eds e 4\n"] + [line + b"\n" for line in SMALL] + [b"node 5 p e\n"]
    for command in COMMANDS:
        changed = [line for whole in each_byte(command) for line in whole.split(b"\n")]
        asked = sum(not re.fullmatch(rb"[ \t\r]*", line) for line in changed)
        seconds, kib, replies = run(program, start + [line + b"\n" for line in changed] + [b"project\n"])
        heads = replies_only(replies)
        right = heads is not None and len(heads) == 2 + asked + 1
        _, _, again = run(program, [line + b"\n" for line in replies[-int(heads[-1][6:]):]] + [b"project\n"]) if right else (0, 0, [])
        right = right and replies_only(again) is not None and not any(line.startswith(b"refused") for line in replies_only(again)) \
            and again[-int(heads[-1][6:]):] == replies[-int(heads[-1][6:]):]
        good = told("bytes " + command.split()[0].decode(), seconds, kib, right, f"{asked} commands") and good
    blocks, count = [], 0
    for line in each_byte(b"DefaultValue=0x10"):
        parts = line.split(b"\n")
        blocks += [b"eds x %d\n" % (2 + len(parts)), b"[2000]\n", b"DataType=5\n"] + [part + b"\n" for part in parts]
        count += 1
    seconds, kib, replies = run(program, blocks + [b"project\n"])
    heads = replies_only(replies)
    return told("bytes of an EDS", seconds, kib, heads is not None and len(heads) == count + 1, f"{count} blocks") and good


# ---- replaced

def replaced(program):
    """A text of 4,000 entries of another value each time: each `dcf` has that value."""
    good, seconds_before = True, None
    for size in (32 << 20, 64 << 20):
        lines, at, turns = [], 0, 0
        while True:
            text = [b"[%04X]\n" % (0x2000 + n) for n in range(4000)]
            text = [part for head in text for part in (head, b"DataType=6\n", b"DefaultValue=%d\n" % (turns % 60000))]
            turn = [b"eds e %d\n" % len(text), *text] + ([b"node 5 p e\n"] if not turns else []) + [b"dcf 5\n"]
            length = sum(map(len, turn))
            if at + length > size:
                break
            lines, at, turns = lines + turn, at + length, turns + 1
        seconds, kib, replies = run(program, lines)
        heads = replies_only(replies)
        right = heads is not None and len(heads) == 2 * turns + 1 and not any(head.startswith(b"refused") for head in heads)
        right = right and replies.count(b"DefaultValue=%d" % (turns - 1)) == 4000
        right = right and (seconds_before is None or seconds <= 3 * seconds_before)
        good = told(f"replaced {size >> 20} MiB", seconds, kib, right, f"{turns} texts") and good
        seconds_before = seconds
    return good


# ---- gone

def objects(number, lines):
    """The lines of a data sheet with so many objects."""
    return [line for n in range(number) for line in (b"[%04X]" % (0x2000 + n), *lines)]


def one_after_another(program, name, sheet, turns, limit):
    """Each `cdcf` is answered, and of the sheets that are dropped nothing is held."""
    block = b"".join(line + b"\n" for line in sheet)
    lines = []
    for turn in range(turns):
        lines += [b"eds a%d %d\n" % (turn, len(sheet)), block, b"node 5 p a%d\n" % turn]
        lines += [b"drop-eds a%d\n" % (turn - 1)] if turn else []
        lines += [b"cdcf 5\n"]
    seconds, kib, replies = run(program, lines)
    right = replies == [b"ok", b"ok", b"lines 1", b"00 00 00 00"] + [b"ok", b"ok", b"ok", b"lines 1", b"00 00 00 00"] * (turns - 1)
    return told(name, seconds, kib, right and kib <= limit << 10, f"{turns} sheets of {len(sheet)} lines")


def gone(program):
    compact = objects(16, [b"ObjectType=8", b"DataType=7", b"CompactSubObj=254"])
    large = objects(4096, [b"DataType=7"]) + [b"[Comments]"]
    large += [b"%X=" % number for number in range(65536 - len(large))]
    good = one_after_another(program, "gone, small", compact, 1000, 32)
    return one_after_another(program, "gone, large", large, 100, 200) and good


# ---- largest

def largest(program):
    """The project of `diagnostics.py`: all edits are taken, and every node whose EDS has no required answer boots."""
    place = os.path.join(os.path.dirname(os.path.abspath(__file__)), "diagnostics.py")
    spec = importlib.util.spec_from_file_location("diagnostics", place)
    sys.dont_write_bytecode = True
    module = importlib.util.module_from_spec(spec)
    spec.loader.exec_module(module)
    commands, edits, _ = module.script(b";23456789012345\n")
    before, _, taken = run(program, commands)
    seconds, kib, replies = run(program, [*commands, b"trace\n"])
    right = taken == [b"ok"] * edits and replies[:edits] == taken and replies[edits] == b"lines %d" % (len(replies) - edits - 1)
    return told("largest", seconds - before, kib, right, f"{len(replies) - edits - 1} lines of the trace")


# ---- busiest

def sender(tpdos):
    """An EDS with so many TPDOs of one byte, each of them on and sent at each SYNC, and a value for each."""
    lines = [b"[1017]", b"DataType=6", b"DefaultValue=10"]
    for number in range(tpdos):
        communication, value = 0x1800 + number, 0x2000 + number
        lines += [b"[%Xsub1]" % communication, b"DataType=7", b"DefaultValue=0x%X" % (0x40000181 + number),
                  b"[%Xsub2]" % communication, b"DataType=5", b"DefaultValue=1",
                  b"[%Xsub0]" % (communication + 0x200), b"DataType=5", b"DefaultValue=1",
                  b"[%Xsub1]" % (communication + 0x200), b"DataType=7", b"DefaultValue=0x%X" % (value << 16 | 8),
                  b"[%X]" % value, b"DataType=5", b"PDOMapping=1"]
    return lines


def busy(tpdos, horizon, events):
    text = sender(tpdos)
    lines = [b"eds e %d" % len(text), *text, b"manager 127 %d 10 500" % SYNC_US, b"horizon %d" % horizon]
    lines += [b"node %d n%d e" % (node, node) for node in range(1, NODES + 1)]
    lines += [b"event %d %d set %d %X 0 %d" % (k, k * (horizon // (events + 1)), k % NODES + 1, 0x2000 + k % tpdos, k % 256)
              for k in range(1, events + 1)]
    return [line + b"\n" for line in lines], 4 + NODES - 1 + events


def busiest(program):
    """Each edit is taken, the bus is never idle once the nodes run, and twice the horizon takes at most thrice the time."""
    good = True
    for tpdos in (1, 16):
        before = None
        for horizon in (5_000_000, 10_000_000):
            lines, edits = busy(tpdos, horizon, 10_000)
            seconds, kib, replies = run(program, lines + [b"trace\n"])
            count = len(replies) - edits - 1
            right = replies[:edits] == [b"ok"] * edits and replies[edits] == b"lines %d" % count
            right = right and (before is None or seconds <= 3 * before)
            good = told(f"busiest {tpdos:3} {horizon // 1_000_000:3} s", seconds, kib, right, f"{count} lines") and good
            before = seconds
    return good


def crowded(program):
    good, before = True, None
    for horizon in (20_000, 40_000):
        lines, edits = busy(512, horizon, 100)
        seconds, kib, replies = run(program, lines + [b"trace\n"])
        right = replies[:edits] == [b"ok"] * edits and (before is None or seconds <= 3 * before)
        good = told(f"crowded {horizon // 1000:3} ms", seconds, kib, right, f"{len(replies) - edits - 1} lines") and good
        before = seconds
    return good


# ---- the inputs of worst_inputs.py

ROUNDS, SLOWER, LONGER = 5, 1.2, 3


def is_answered(replies):
    """Whether each command has a reply, and none is refused."""
    heads = replies_only(replies)
    return heads is not None and not any(head.startswith(b"refused") for head in heads)


def least(program, *inputs):
    """The least seconds of some runs of each of these inputs, by turns; the most memory, and whether all is answered."""
    seconds, peak, right = [float("inf")] * len(inputs), 0, True
    for _ in range(ROUNDS):
        for place, pieces in enumerate(inputs):
            took, kib, replies = run(program, pieces)
            seconds[place], peak, right = min(seconds[place], took), max(peak, kib), right and is_answered(replies)
    return seconds, peak, right


def compared(program, name, most, worse, better):
    """Whether an input takes at most so many times as long as another one."""
    (slow, fast), kib, right = least(program, worse, better)
    return told(name, slow, kib, right and slow <= most * fast, times(slow, fast))


def times(slow, fast):
    """How many times as long one takes as another, in words."""
    return f"{slow / max(fast, 1e-9):.2f} times {fast * 1000:.2f} ms"


def within(program, name, pieces, mebibytes):
    """Whether an input is answered in so much memory."""
    seconds, kib, replies = run(program, pieces)
    return told(name, seconds, kib, is_answered(replies) and kib <= mebibytes << 10, f"at most {mebibytes} MiB")


def keys(program):
    count = 16_384
    return compared(program, "keys", LONGER, worst_inputs.keys(count, True), worst_inputs.keys(count, False))


def long(program):
    good = True
    for query, with_one in (("diag", ["DefaultValue"]), ("trace", ["DefaultValue", "LowLimit", "HighLimit"])):
        pieces = [worst_inputs.formulas(digits, with_one, query) for digits in (worst_inputs.LONGEST, 20)]
        good = compared(program, f"long, {query}", LONGER, *pieces) and good
    return good


def sheets(program):
    return within(program, "sheets", worst_inputs.sheets(100), 64)


def events(program):
    return within(program, "events", worst_inputs.events(200), 256)


def first(program):
    """The last 500 of 3,000 turns beside the second 500, each as what they add to a session."""
    (one, two, three, four), kib, right = least(program, *map(worst_inputs.first_event, (500, 1000, 2500, 3000)))
    early, late = two - one, four - three
    return told("first", four, kib, right and late <= SLOWER * early, times(late / 500, early / 500))


def flip(program):
    turns = 20
    (none, one, all_of_them), kib, right = least(program, *map(worst_inputs.flips, (0, 1, turns)))
    start, further = one - none, (all_of_them - one) / (turns - 1)
    return told("flip", all_of_them, kib, right and further <= SLOWER * start, times(further, start))


def moved(program):
    return within(program, "moved", worst_inputs.moved(), 1400)


def unused(program):
    (reading, whole), kib, right = least(program, worst_inputs.unused(0), worst_inputs.unused(50))
    return told("unused", whole, kib, right and whole - reading <= reading / 10, f"{(whole - reading) * 20:.3f} ms a turn")


KINDS = {"bytes": bytes_everywhere, "replaced": replaced, "gone": gone, "largest": largest, "busiest": busiest, "crowded": crowded,
         "keys": keys, "long": long, "sheets": sheets, "events": events, "first": first, "flip": flip, "moved": moved, "unused": unused}
QUICK = "keys", "long"      # those that take under two seconds


def check(program, name, _library):
    """For `checks`: whether a kind is right, and what it says."""
    with contextlib.redirect_stdout(io.StringIO()) as said:
        try:
            is_right = KINDS[name](program)
        except SystemExit as why:
            return False, f"not checked: {why}"
    return is_right, " ".join(said.getvalue().split())


def main():
    if len(sys.argv) < 2 or not set(sys.argv[2:]) <= set(KINDS):
        sys.exit(__doc__)
    program = os.path.abspath(sys.argv[1])
    done = [KINDS[name](program) for name in sys.argv[2:] or KINDS]
    sys.exit(0 if all(done) else 1)


if __name__ == "__main__":
    main()
