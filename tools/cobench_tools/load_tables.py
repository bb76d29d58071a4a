"""The tables of a network's load: each identifier's share of the bus and its worst case, and what a boot takes."""
from . import boots, matrix
from .findings import milliseconds
from .report import counted
from .tables import Table
from .trace import Note, has_stuff_bits
from .traffic import most_bits, plain_bits, time_text

NONE = "-"
STUFFED = "with stuff bits"
COLUMNS = ["COB-ID", "Frames", "Sender", "Bytes", "Comes", "Bits", f"Bits {STUFFED}", "Time [us]",
           f"Time {STUFFED} [us]", "Share [%]", f"Share {STUFFED} [%]", "Longest wait [ms]",
           f"Longest wait {STUFFED} [ms]", "In the trace [ms]", "Deadline [ms]", "In time"]
IN_TIME = {True: "NO", False: "yes"}


def in_milliseconds(time):
    return NONE if time is None else f"{time / 1000:.3f}"


def share_text(share):
    return NONE if share is None else f"{share:.2f}"


def row(load, each):
    """What there is to tell of the frames of an identifier."""
    both = load.plain, load.stuffed
    cells = [identifier_text(each), each.name, sender_text(load, each), each.size, comes(load, each)]
    cells += [load.bits(analysis, each) for analysis in both] + [analysis.duration(each) for analysis in both]
    cells += [share_text(analysis.share(each)) for analysis in both]
    cells += [in_milliseconds(analysis.of[each].wait) for analysis in both]
    deadline = load.deadline(each)[0] if each.has_deadline() else None
    cells += [in_milliseconds(load.seen[each].longest), in_milliseconds(deadline)]
    return cells + [in_time(load, each)]


def identifier_text(each):
    """The identifier of frames; one of 29 bits has eight digits."""
    return f"{each.identifier:08X}h" if each.is_extended else f"{each.identifier:03X}h"


def sender_text(load, each):
    return NONE if each.sender is None else load.network.name(each.sender)


def in_time(load, each):
    """Whether frames are in time, in a word."""
    if load.stuffed.of[each].wait is None:
        return "no bound"
    return IN_TIME.get(load.is_late(each), NONE)


def comes(load, each):
    """How often frames come, in words, and whether that is assumed."""
    return each.comes + (f", taken: each {time_text(load.assumed)}" if each.is_assumed else "")


def frames_table(load):
    sums = [f"{load.total(analysis):.1f} %" for analysis in (load.plain, load.stuffed)]
    below = (f"All frames that have a bound take {sums[0]} of the bus without stuff bits, and {sums[1]} with the most. "
             "Waits are from when a frame is ready, for what SYNC sends from SYNC on, to when it is there whole, where "
             "each node sends an emergency at once, and one SDO frame comes in the way.")
    rows = [row(load, each) for each in load.traffic]
    late = {place: "late" for place, each in enumerate(load.traffic) if load.is_late(each)}
    return Table("frames", "Once the network is operational", COLUMNS, rows, below, late)


def is_sdo(line, node):
    return not isinstance(line, Note) and line.identifier in (0x580 + node, 0x600 + node)


def stuffed_bits(load, frame):
    """The bits of a frame of the trace with its stuff bits; where the trace doesn't count them, with the most."""
    return frame.bits if has_stuff_bits(load.network.project) else most_bits(len(frame.data))


def boot_table(load):
    """What the first boot of each node takes: SDO frames, their time on the bus, and when it was configured."""
    all_boots, rows, sums = boots.boots_of(load.lines), [], [0, 0, 0, 0]
    for number in load.network.project.booted:
        node, first = load.network.nodes[number], all_boots.get(number, [None])[0]
        end = first.end if first else None
        frames = [line for line in load.lines if is_sdo(line, number) and (end is None or line.time <= end)]
        plain = sum(plain_bits(len(frame.data)) for frame in frames) * load.bit
        most = sum(stuffed_bits(load, frame) for frame in frames) * load.bit
        times = [plain, most, end if first and first.is_configured() else None]
        rows.append([number, load.network.name(number), len(node.written), len(frames), *map(in_milliseconds, times)])
        sums = [each + new for each, new in zip(sums, (len(node.written), len(frames), plain, most))]
    if rows:
        first = [several[0] for several in all_boots.values()]
        last = max((boot.end for boot in first if boot.is_configured()), default=None)
        rows.append([NONE, "all of the manager's SDO", *sums[:2], *map(in_milliseconds, sums[2:] + [last])])
    columns = ["Node", "Name", "Entries written", "SDO frames", "On the bus [ms]", f"On the bus {STUFFED} [ms]",
               "Configured at [ms]"]
    times = [boot.end for several in all_boots.values() for boot in several[:1] if boot.is_configured()]
    below = f"In the trace the last node is configured at {milliseconds(max(times))}." if times else ""
    return Table("boot", "Before that: the boot of each node", columns, rows, below)


def heading(title, load):
    lines = matrix.heading(title, load.network)
    lines += [f"window behind SYNC {load.window:,} us"] if load.window is not None else []
    return lines + ([f"with {counted(len(load.foreign), 'identifier')} of others"] if load.foreign else [])


TABLES = {"frames": frames_table, "boot": boot_table}


def tables_of(load, wanted=None):
    """All tables, or the wanted one."""
    return [TABLES[wanted](load)] if wanted else [make(load) for make in TABLES.values()]
