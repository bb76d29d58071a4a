"""What a trace says of the bus: how often each identifier is sent and how long it waits, boots, and SYNC to the last PDO.

A trace tells when a frame was there whole, not since when it waited. What can be told is the longest that it may have
waited: a frame that waits while the bus is free is sent at once, and one that waits while a frame with a higher
identifier starts is sent before that. So it waited at most since the last such start, or since the bus was free; and
an SDO frame not before the one that it follows on.
"""
from . import boots, meaning
from .tables import Table
from .trace import Frame, Note

SYNC, SDO = 0x080, (0x580, 0x600)
WINDOW = 10_000
NONE = "-"


def milliseconds(time):
    return NONE if time is None else f"{time / 1000:.3f}"


class Spread:
    """The least, mean and greatest of numbers, and the moment of the greatest."""

    def __init__(self):
        self.count = self.total = 0
        self.least = self.greatest = self.moment = None

    def add(self, number, moment):
        self.count, self.total = self.count + 1, self.total + number
        self.least = number if self.least is None else min(self.least, number)
        if self.greatest is None or number > self.greatest:
            self.greatest, self.moment = number, moment

    def cells(self, shown=milliseconds):
        """Least, mean and greatest."""
        return [shown(each) for each in (self.least, self.total / self.count if self.count else None, self.greatest)]


class Identifier:
    """What there is to tell of an identifier: its frames, the time that they took, its periods and its waits."""

    def __init__(self, shown, what):
        self.shown, self.what, self.count, self.busy, self.last = shown, what, 0, 0, None
        self.periods, self.waits = Spread(), Spread()

    def add(self, time, took, wait):
        if self.last is not None:
            self.periods.add(time - self.last, time)
        self.count, self.busy, self.last = self.count + 1, self.busy + took, time
        self.waits.add(wait, time)


class Bus:
    """The frames on the wire, one after another.

    since    since when the bus has been busy
    last     when the last frame was there whole
    higher   the identifiers that started since then, each with its start; left out are those that a higher one followed
    said     the last SDO frame or boot-up message of each node
    windows  for how long the bus was busy in each window of 10 ms
    """

    def __init__(self, bit):
        self.bit, self.since, self.last, self.higher = bit, 0, -1, []
        self.said, self.windows = {}, {}

    def add(self, frame):
        """Takes a frame, the next one; how long it may have waited."""
        start = max(frame.time - frame.bits * self.bit, min(self.last, frame.time), 0)
        if start > self.last:
            self.since, self.higher = start, []
        while self.higher and self.higher[-1][0] <= frame.identifier:
            self.higher.pop()
        since = self.higher[-1][1] if self.higher else self.since
        self.higher.append((frame.identifier, start))
        self.last = frame.time
        self._fill(start, frame.time)
        return start - max(since, self._follows(frame))

    def _follows(self, frame):
        """When the frame was there that an SDO frame follows on, 0 for any other."""
        node, service = frame.identifier & 0x7F, frame.identifier & 0x780
        if not isinstance(frame, Frame):
            return 0
        before = self.said.get(node, 0) if service in SDO else 0
        if service in SDO or boots.is_boot_up(frame):
            self.said[node] = frame.time
        return before

    def _fill(self, start, end):
        """The bus is busy from a start to an end."""
        for window in range(start // WINDOW, (end - 1) // WINDOW + 1):
            first, last = window * WINDOW, (window + 1) * WINDOW
            self.windows[window] = self.windows.get(window, 0) + min(end, last) - max(start, first)


class Stats:
    """What a trace says.

    identifiers  what there is to tell of each identifier
    periods      the time between two SYNC messages
    delays       the time from a SYNC to the last PDO that follows it before the bus is free, or the next SYNC comes
    pdos         how many PDOs these are
    """

    def __init__(self, shown):
        self.lines, self.bit, self.end, self.is_recorded = shown.lines, shown.bit, shown.end, shown.plan is not None
        self.network, self.bus = shown.network(), Bus(self.bit)
        self.identifiers = {}
        self.periods, self.delays, self.pdos = Spread(), Spread(), Spread()
        self._sync, self._last, self._count = None, None, 0
        for line in self.lines:
            said = self.network.of(line)
            if not isinstance(line, Note):
                self._take(line, said)
        self._end_sync()

    def _take(self, frame, said):
        known = self.identifiers.setdefault(frame.order, Identifier(frame.shown, self.what(said)))
        known.add(frame.time, frame.bits * self.bit, self.bus.add(frame))
        self._follow(frame, said)

    def what(self, said):
        """What frames of an identifier are, in words."""
        if said.kind in (meaning.PDO, meaning.OTHER):
            return said.subject
        direction = "" if said.kind != meaning.SDO else " request" if said.sender == self.network.manager else " answer"
        name = "" if said.kind in (meaning.NMT, meaning.SYNC) or said.node is None else f"{self.network.name(said.node)} "
        return f"{name}{said.kind}{direction}"

    def _follow(self, frame, said):
        """Looks which PDOs follow a SYNC while the bus is busy."""
        if said.kind == meaning.SYNC:
            if self._sync is not None:
                self.periods.add(frame.time - self._sync, frame.time)
            self._end_sync()
            self._sync, self._last, self._count, self._busy = frame.time, None, 0, True
        elif self._sync is not None:
            self._busy = self._busy and self.bus.since < self._sync
            if self._busy and said.kind == meaning.PDO:
                self._last, self._count = frame.time, self._count + 1

    def _end_sync(self):
        """Takes what followed the last SYNC."""
        if self._sync is not None:
            self.pdos.add(self._count, self._sync)
            if self._last is not None:
                self.delays.add(self._last - self._sync, self._sync)

    def share(self, busy, time):
        """Of how much of a time the bus is busy, in per cent."""
        return f"{100 * busy / time:.1f}" if time else NONE

    # Tables.

    def heading(self, title):
        frames = sum(each.count for each in self.identifiers.values())
        busy, windows = sum(self.bus.windows.values()), self.bus.windows
        window = max(windows, key=lambda place: (windows[place], -place), default=0)
        busiest = f"at most {self.share(windows.get(window, 0), WINDOW)} % in 10 ms, from {window * WINDOW // 1000} ms on"
        return [title, f"{frames} frames in {milliseconds(self.end)} ms at {1000 // self.bit} kbit/s; the bus is busy "
                       f"{self.share(busy, self.end)} % of the time, {busiest}"]

    def identifiers_table(self):
        columns = ["COB-ID", "What", "Frames", "Bus [%]", "Period [ms]: least", "mean", "greatest", "Waited at most [ms]", "at [ms]"]
        rows = [[each.shown + "h" * (each.shown != "-"), each.what, each.count, self.share(each.busy, self.end), *each.periods.cells(),
                 milliseconds(each.waits.greatest), milliseconds(each.waits.moment)]
                for _, each in sorted(self.identifiers.items())]
        return Table("identifiers", "Identifiers", columns, rows)

    def boots_table(self):
        rows = []
        for node, several in sorted(boots.boots_of(self.lines, self.is_recorded).items()):
            if node != self.network.manager:
                rows += [[node, self.network.name(node), milliseconds(boot.start), milliseconds(boot.end),
                          milliseconds(boot.end - boot.start) if boot.end else NONE, boot.what or "not over"] for boot in several]
        columns = ["Node", "Name", "Boot-up [ms]", "End [ms]", "Took [ms]", "Outcome"]
        return Table("boots", "Boots", columns, rows)

    def sync_table(self):
        rows = [[what, spread.count, *spread.cells(shown), milliseconds(spread.moment)] for what, spread, shown in (
            ("period [ms]", self.periods, milliseconds), ("to the last PDO [ms]", self.delays, milliseconds),
            ("PDOs", self.pdos, lambda number: NONE if number is None else f"{number:.1f}".replace(".0", "")))]
        columns = ["SYNC", "Counted", "least", "mean", "greatest", "at [ms]"]
        below = "PDOs count that follow a SYNC before the bus is free or the next SYNC comes."
        return Table("sync", "SYNC", columns, rows if self.pdos.count else [], below if self.pdos.count else "")

    def tables(self, key=None):
        """All tables, or that of a name."""
        every = {"identifiers": self.identifiers_table, "boots": self.boots_table, "sync": self.sync_table}
        return [make() for name, make in every.items() if key in (None, name)]
