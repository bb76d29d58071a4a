"""Inputs that ask for much and are short themselves, for hostile.py: each is the pieces of a script, as bytes.

The limits of a line and of a text are those of docs/limits.md.
"""
import ini

NODES = 126
LONGEST = 4070          # digits that a formula can have in a line
MOST_LINES, MOST_ENTRIES = 65_536, 4_096
COMPACT = "ObjectType=8", "DataType=5", "CompactSubObj=254"


def script(*lines):
    """The bytes of these lines."""
    return "".join(f"{line}\n" for line in lines).encode()


def eds(name, lines):
    return script(f"eds {name} {len(lines)}", *lines)


def nodes(name, numbers=range(1, NODES + 1)):
    return script(*(f"node {number} n{number} {name}" for number in numbers))


def keys(count, is_chosen):
    """A data sheet of one section with so many keys: any, or those that a hash that starts from a known number puts together."""
    text = (ini.chosen if is_chosen else ini.letters)(16 * count)
    lines = text.split(b"\n")[:count + 1]
    return [b"eds e %d\n" % len(lines), b"\n".join(lines), b"\n"]


def formulas(digits, keys_with_one, query):
    """126 nodes of 16 arrays of 254 entries whose defaults, and limits where they are among the keys, are formulas of so many digits."""
    lines = []
    for index in range(0x2000, 0x2010):
        lines += [f"[{index:X}]", *COMPACT, *(f"{key}=$NODEID+{'0' * digits}" for key in keys_with_one)]
    return [eds("e", lines), nodes("e"), script("horizon 1", query)]


def sheets(turns):
    """126 nodes of a data sheet that each turn replaces, with a trace behind each."""
    pieces = []
    for turn in range(turns):
        lines = [line for index in range(0x2000, 0x2010)
                 for line in (f"[{index:X}]", "ObjectType=8", "DataType=7", "CompactSubObj=254", f"DefaultValue={turn}")]
        pieces += [eds("e", lines), *([] if turn else [script("horizon 0"), nodes("e")]), script("trace")]
    return pieces


def events(turns, count=10_000, size=500):
    """So many events that each set a text, and turns in which one event changes, with a trace behind each."""
    lines = [line for index in range(0x2000, 0x2010) for line in (f"[{index:X}]", "ObjectType=8", "DataType=9", "CompactSubObj=254")]
    pieces = [eds("e", lines), nodes("e", (1, 2, 3)), script("horizon 9999")]
    for number in range(count):
        node, rest = divmod(number, 16 * 254)
        index, sub = divmod(rest, 254)
        pieces.append(script(f"event {number + 1} {(number + 1) % 9000} set {node + 1} {0x2000 + index:X} {sub + 1:X} {'a' * size}"))
    return pieces + [script(f"event 1 1 set 1 2000 1 {turn}", "trace") for turn in range(turns)]


def first_event(turns):
    """126 nodes, and turns in which an event of the first moment changes, with a trace behind each."""
    start = [eds("e", ["[2000]", "DataType=6"]), script("horizon 9999"), nodes("e")]
    return start + [script(f"event 1 0 set 1 2000 0 {turn}", "trace") for turn in range(turns)]


def flips(turns, pdos=512):
    """126 nodes of 1,024 PDOs, and turns in which an event takes one of two forms, with a trace of ten seconds behind each."""
    lines = [line for base in (0x1400, 0x1800) for index in range(base, base + pdos)
             for line in (f"[{index:X}sub1]", "DataType=7", "DefaultValue=0x80000000")]
    lines += [line for base in (0x1600, 0x1A00) for index in range(base, base + pdos) for line in (f"[{index:X}sub0]", "DataType=5")]
    start = [eds("e", lines), script("horizon 10000000"), nodes("e")]
    return start + [script(f"event 1 200000 nmt {1 + turn % 2} {NODES}", "trace") for turn in range(turns)]


def large(lines):
    """The lines of a data sheet of the most entries, and of comments."""
    objects = [line for number in range(MOST_ENTRIES) for line in (f"[{0x2000 + number:X}]", "DataType=5")]
    return objects + ["[Comments]"] + [f"{number:X}=" for number in range(lines - len(objects) - 1)]


def moved(turns=NODES):
    """Nodes that have a large data sheet each, are asked about and get a small one, while the large one is dropped."""
    lines = script(*large(MOST_LINES))
    pieces = [eds("s", ["[2000]", "DataType=5"])]
    for node in range(1, turns + 1):
        pieces += [script(f"eds x{node} {MOST_LINES}"), lines,
                   script(f"node {node} n{node} x{node}", f"cdcf {node}", f"node {node} n{node} s", f"drop-eds x{node}")]
    return pieces


def unused(turns, count=63, lines=60_000):
    """So many large data sheets that no node has, and turns of an edit and `diag`."""
    pieces = [eds("u", ["[2000]", "DataType=5"]), script("node 5 n5 u")] + [eds(f"x{number}", large(lines)) for number in range(count)]
    return pieces + [script(f"horizon {turn}", "diag") for turn in range(turns)]
