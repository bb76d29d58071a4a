"""The longest time that the frames of each identifier waited in a trace, as far as the trace shows it.

A trace tells when a frame was there whole. When it began to wait is known of SYNC, TIME and heartbeats, which come by the
clock, and of PDOs that SYNC sends; of one that is sent when a value changes it is taken to be the last moment at which
that can have been, so that no wait is told that wasn't one. Left out is what follows, while the bus is busy, on frames
of boots, NMT commands and emergencies, which no bound counts.
"""
from . import values
from .traffic import SYNC, TIME, UNSIGNED16
from .trace import Note
from .wiring import RPDO

BOOT_UP, START, RESETS = b"\x00", 1, (129, 130)
PRODUCER = 0x1017, 0


class Seen:
    """What a trace shows of an identifier: how many frames count, their longest wait and when, and the least distance."""

    def __init__(self):
        self.count, self.longest, self.moment, self.least = 0, None, None, None

    def add(self, wait, time):
        self.count += 1
        if self.longest is None or wait > self.longest:
            self.longest, self.moment = wait, time


class Clock:
    """When the heartbeats of a node are due: each period from a start on, a period of 0 being none."""

    def __init__(self, start, period):
        self.start, self.period = start, period

    def last(self, time):
        """The last moment up to a time at which one was due, None for none."""
        return self.start + (time - self.start) // self.period * self.period if self.period else None


class Waits:
    """Goes through a trace; `seen` is what it shows of each of the frames that count."""

    def __init__(self, network, traffic, lines, bit):
        self.network, self.bit = network, bit
        self.by_identifier = {}
        for each in traffic:
            if not each.is_once and not each.is_foreign:
                self.by_identifier.setdefault(each.identifier, []).append(each)
        self.seen = {each: Seen() for each in traffic}
        self.end, self.is_disturbed, self.configured = 0, False, set()
        self.sync, self.queued, self.sent, self.touched, self.last = None, {}, {}, {}, {}
        self.clocks = {number: self._default_clock(number, 0) for number in network.nodes}
        self.clocks[network.project.manager[0]] = Clock(0, 1000 * network.project.manager[2])
        self._events = sorted(network.project.events.values(), key=lambda event: -event.time)
        self._feeds = feeds(network, traffic)
        for line in lines:
            self._note(line) if isinstance(line, Note) else self._frame(line)

    def _default_clock(self, number, start):
        return Clock(start, 1000 * (self._default(number) or 0))

    def _reset_clock(self, number, start):
        """The heartbeat of a node begins anew; that of the controller is the manager's, and goes on."""
        if number != self.network.project.controller:
            self.clocks[number] = self._default_clock(number, start)

    def _default(self, number):
        """The heartbeat time that a node has by its data sheet."""
        entry = self.network.nodes[number].device.entries.get(PRODUCER)
        return int.from_bytes(values.default_of(entry, number), "little") if entry and entry.kind == UNSIGNED16 else 0

    def _note(self, note):
        """A node is configured, or isn't any more: what it sent before, it may have sent by other rules."""
        change = self.configured.add if note.what == "configured" else self.configured.discard
        change(note.node)
        for each in [each for each in self.sent if each.sender == note.node]:
            del self.sent[each]

    def _frame(self, frame):
        """Takes a frame, the next one."""
        start = frame.time - frame.bits * self.bit
        self._take_events(start)
        if start > self.end:
            self.is_disturbed = False
        self.end = frame.time
        known = self.by_identifier.get(frame.identifier, [])
        if len(known) != 1 or not self._counts(known[0], frame):
            self.is_disturbed = True
            self._take_command(frame)
        else:
            self._measure(known[0], start, frame.time)
        self._deliver(frame)

    def _counts(self, traffic, frame):
        """Whether a frame is one that the bounds count: of a node that is configured, and no boot-up message."""
        is_boot_up = traffic.identifier >> 7 == 0xE and frame.data == BOOT_UP
        is_known = traffic.sender in self.configured or traffic.sender == self.network.project.manager[0]
        return is_known and not is_boot_up

    def _measure(self, traffic, start, time):
        """Counts the wait of a frame, if it is known."""
        since, seen = self._since(traffic, start), self.seen[traffic]
        if traffic in self.last:
            distance = time - self.last[traffic]
            seen.least = distance if seen.least is None else min(seen.least, distance)
        self.last[traffic], self.sent[traffic], self.queued[traffic] = time, start, start if since is None else since
        if since is not None and not self.is_disturbed:
            seen.add(time - since, time)

    def _since(self, traffic, start):
        """Since when a frame that starts there has waited, at the least; None where that isn't known."""
        if traffic.identifier in (SYNC, TIME) and traffic.tpdo is None:
            return start // traffic.period * traffic.period
        if traffic.tpdo is None:
            return self.clocks[traffic.sender].last(start)
        if traffic.is_of_sync():
            return self.sync
        if traffic not in self.sent:
            return None
        moments = [self.touched.get(traffic, -1)] + [min(moment, start) for moment in self._own_moments(traffic)]
        return max((moment for moment in moments if self.sent[traffic] < moment <= start), default=None)

    def _own_moments(self, traffic):
        """The ends of the inhibit time and of the event time from the last time on, at the latest."""
        queued, tpdo = self.queued[traffic], traffic.tpdo
        inhibit, event = 100 * tpdo.inhibit, 1000 * tpdo.event
        return [queued + inhibit] * bool(inhibit) + [queued + max(inhibit, event)] * bool(event)

    def _take_events(self, until):
        """The events of the scenario up to a time."""
        while self._events and self._events[-1].time <= until:
            event = self._events.pop()
            if self.network.project.is_idle(event):
                continue
            if event.kind == "power" and event.what == "on":
                self.clocks[event.node] = self._default_clock(event.node, event.time)
            elif event.kind == "set" and event.entry == PRODUCER:
                time = values.number_of(UNSIGNED16, event.what, event.node) or 0
                self.clocks[event.node] = Clock(event.time, 1000 * time)
            elif event.kind == "set":
                self._touch(self._feeds.of_entry.get((event.node, event.entry), ()), event.time)

    def _touch(self, several, time):
        for traffic in several:
            self.touched[traffic] = time

    def _deliver(self, frame):
        """What a frame brings about at those who take it: values of TPDOs may change."""
        self._touch(self._feeds.of_identifier.get(frame.identifier, ()), frame.time)
        if frame.identifier == SYNC:
            self.sync = frame.time
            self._touch(self._feeds.of_sync, frame.time)

    def _take_command(self, frame):
        """What an NMT command or a write of a heartbeat time brings about."""
        data, node = frame.data, frame.identifier - 0x600
        if frame.identifier == 0 and len(data) == 2:
            nodes = [data[1]] if data[1] else list(self.network.nodes)
            for each in nodes if data[0] in RESETS else []:
                self._reset_clock(each, frame.time)
            self._touch([one for one in self.seen if one.sender in nodes and data[0] == START], frame.time)
            self.last.clear()
        elif node in self.network.nodes and data[:4] == b"\x2b\x17\x10\x00":
            self.clocks[node] = Clock(frame.time, 1000 * int.from_bytes(data[4:6], "little"))


class Feeds:
    """What may change the values of TPDOs that are sent at changes: an entry of a node, an identifier, SYNC."""

    def __init__(self):
        self.of_entry, self.of_identifier, self.of_sync = {}, {}, []


def feeds(network, traffic):
    """What may change the values of these."""
    found = Feeds()
    for each in traffic:
        if each.tpdo and not each.is_of_sync():
            keys = {part.key for part in each.tpdo.parts}
            for key in keys:
                found.of_entry.setdefault((each.sender, key), []).append(each)
            for rpdo in network.nodes[each.sender].pdos(RPDO):
                if keys & {part.key for part in rpdo.parts}:
                    found.of_identifier.setdefault(rpdo.identifier, []).append(each)
                    found.of_sync.append(each)
    return found
