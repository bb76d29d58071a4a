"""How the nodes of a network boot, as the frames and the manager's notes of a trace tell it."""
from .trace import Frame, Note

BOOT_UP, START = 0x700, b"\x01"
CONFIGURED, FAILED, STARTED = "configured", "failed", "started"


class Boot:
    """A boot of a node.

    node   its number
    start  the microsecond of its boot-up message
    end    that of the manager's note, None where the boot isn't over
    what   the note: `configured`, or `failed` and why; None where there is none
    """

    def __init__(self, node, start):
        self.node, self.start, self.end, self.what = node, start, None, None

    def is_configured(self):
        return self.what == CONFIGURED

    def has_failed(self):
        return self.what is not None and self.what.startswith(FAILED)


def is_boot_up(line):
    """Whether a line is the boot-up message of a node."""
    return isinstance(line, Frame) and BOOT_UP < line.identifier <= BOOT_UP + 127 and line.data == b"\x00"


def boots_of(lines, is_recorded=False):
    """The boots of each node, in their order, by its number; the manager, which nobody boots, has some without an end.

    A recording has no notes: there a boot ends where the node is started.
    """
    boots = {}
    for line in lines:
        if is_boot_up(line):
            node = line.identifier - BOOT_UP
            boots.setdefault(node, []).append(Boot(node, line.time))
        elif is_recorded and isinstance(line, Frame) and line.identifier == 0 and line.data[:1] == START:
            for node in [line.data[1]] if line.data[1:2] > b"\0" else list(boots):
                end_by_start(boots.get(node, [])[-1:], line.time)
        elif isinstance(line, Note) and line.what != "lost" and line.node in boots:
            boots[line.node][-1].end, boots[line.node][-1].what = line.time, line.what
    return boots


def end_by_start(last, time):
    """Its node is started: that ends the last boot, if it isn't over."""
    for boot in last:
        if boot.end is None:
            boot.end, boot.what = time, STARTED
