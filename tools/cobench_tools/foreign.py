"""Frames of others on the bus of a network: as the user says, or as a recording has them.

Of a recording the frames of an identifier are bound so that they never come sooner than there: on an average as far
apart as in it, and sooner by its jitter, which is how far the times in it stray from such a clock.
"""
import re

from . import tool
from .logs import source
from .logs.rows import EXTENDED
from .responses import LONGEST_BUSY
from .traffic import EMCY, HEARTBEAT, LONGEST, SDO, SYNC, TIME, Traffic, time_text

FORM = re.compile("(?:0[xX])?([0-9A-Fa-f]{1,8}):([0-9]{1,2}):([0-9]{1,9})")
GREATEST, GREATEST_EXTENDED, LONGEST_PERIOD = 0x7FF, 0x1FFFFFFF, 100_000_000
LONG_DIGITS = 4     # an identifier of so many digits has 29 bits
NMT_START = b"\x01"


def add_arguments(parser):
    """The words that name frames of others."""
    parser.add_argument("--foreign", metavar="ID:BYTES:US", action="append", default=[],
                        help="count frames of others too: identifier (hexadecimal; of 29 bits with eight digits), "
                        "bytes, and least microseconds between two; can be repeated")
    parser.add_argument("--with", metavar="LOG", dest="log",
                        help="count the frames of a recording that the script doesn't plan")


def traffic_of(options, network):
    """The frames of others that the words of a command give."""
    found = [said(text) for text in options.foreign]
    return found + (recorded(options.log, network) if options.log else [])


def made(identifier, is_extended, size, period, comes):
    """The frames of others with an identifier."""
    name = f"{identifier:08X}" if is_extended else f"{identifier:03X}"
    found = Traffic(identifier, ("foreign", name), f"foreign {name}h", None, size, period, comes)
    found.is_extended, found.is_foreign = is_extended, True
    return found


def said(text):
    """The frames that a word of the user gives."""
    form = FORM.fullmatch(text)
    identifier, size, period = (int(form.group(1), 16), int(form.group(2)), int(form.group(3))) if form else (0, 0, 0)
    is_extended = bool(form) and len(form.group(1)) >= LONG_DIGITS
    greatest = GREATEST_EXTENDED if is_extended else GREATEST
    if not form or identifier > greatest or size > LONGEST or not 1 <= period <= LONGEST_PERIOD:
        raise tool.Fault(f"--foreign is ID:BYTES:US, as 301:8:10000 or 18FEF100:8:100000, and not {text}")
    return made(identifier, is_extended, size, period, f"each {time_text(period)}")


class Seen:
    """The frames of an identifier in a recording: how many, the longest, and how far their times stray."""

    def __init__(self):
        self.times, self.size = [], 0

    def add(self, time, size):
        self.times.append(time)
        self.size = max(self.size, size)

    def clock(self):
        """The period on an average, rounded down, and how much sooner than by it frames come at most."""
        count = len(self.times)
        period = max((self.times[-1] - self.times[0]) // max(count - 1, 1), 1)
        least, jitter = 0, 0
        for number, time in enumerate(self.times):
            ahead = number * period - (time - self.times[0])
            least = min(least, ahead)
            jitter = max(jitter, ahead - least)
        return period, jitter


def recorded(path, network):
    """The frames of a recording that the network doesn't send itself."""
    seen, planned, nodes = {}, planned_identifiers(network), set(network.nodes)
    for block in source.Log(path).blocks():
        for time, key, data in block.rows:
            identifier = int(key[:3], 16)
            if identifier == 0 and bytes.fromhex(data[:2]) == NMT_START:
                forget_boots(seen, nodes)
            if identifier not in planned:
                seen.setdefault((identifier, False), Seen()).add(time, len(data) // 2)
        for aside in block.aside:
            if aside.kind == EXTENDED and aside.identifier is not None:
                seen.setdefault((aside.identifier, True), Seen()).add(aside.time, aside.size)
    return [of_seen(*key, each) for key, each in sorted(seen.items()) if each.times]


def planned_identifiers(network):
    """The identifiers of what the network sends itself, but for SDO."""
    nodes = set(network.nodes) | {network.project.manager[0]}
    found = {0, SYNC} | ({TIME} if network.project.time else set()) | {tpdo.identifier for tpdo in network.tpdos}
    return found | {base + node for base in (EMCY, HEARTBEAT) for node in nodes}


def forget_boots(seen, nodes):
    """At a start command of the network: the SDO frames before it may be those of a boot."""
    for node in nodes:
        for base in (SDO, SDO + 0x80):
            seen.pop((base + node, False), None)


def of_seen(identifier, is_extended, seen):
    """The frames of an identifier of a recording."""
    size = min(seen.size, LONGEST)
    if len(seen.times) == 1:
        found = made(identifier, is_extended, size, LONGEST_BUSY, "once in the recording")
        found.is_once = True
        return found
    period, jitter = seen.clock()
    comes = f"each {time_text(period)}, {time_text(jitter)} sooner at most, in the recording"
    found = made(identifier, is_extended, size, period, comes)
    found.jitter = jitter
    return found
