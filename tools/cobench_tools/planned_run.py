"""What a planned run shows: states of nodes, heartbeats that are missed, what is sent, and when the bus is full.

The rules are those of docs/rules/devices.md and docs/rules/bus.md: events come before the frame that ends with them,
and a consumer fails its time after the error control frame that it heard last.
"""
from . import boots, full_bus, values
from .boots import CONFIGURED
from .trace import Note
from .wiring import RPDO, TPDO

U32 = 0x07
CONSUMERS, PRODUCER = 0x1016, (0x1017, 0)
OFF, STOPPED, OPERATIONAL, PRE_OPERATIONAL = "off", "stopped", "operational", "pre-operational"
START, STOP, PREPARE, RESETS = 1, 2, 128, (129, 130)
MISSED, TOO_SHORT = 0x8130, 0x8210


class Consumer:
    """A heartbeat consumer: its node and sub-index, whom it watches, for how many microseconds, and what it heard."""

    def __init__(self, node, sub, word):
        self.node, self.sub, self.configured = node, sub, word
        self.set(word)

    def set(self, word):
        """Its entry has a value, and it begins anew."""
        self.watched, self.time = word >> 16 & 0xFF, 1000 * (word & 0xFFFF)
        self.heard, self.has_failed = None, False

    def fails_before(self, time):
        """Whether it fails before a moment by what it heard, and hasn't yet."""
        return self.time and self.heard is not None and not self.has_failed and self.heard + self.time < time


class Emergency:
    """An emergency message that is no end of errors.

    node, code  whose it is, and its error code
    time        when it was there
    consumer    the heartbeat consumer that failed, None where it isn't that
    short       the RPDO for which a frame was too short, and the bytes of the frame, else None
    event       the number of the event that explains it, None where none does
    """

    def __init__(self, node, code, time):
        self.node, self.code, self.time = node, code, time
        self.consumer = self.short = self.event = None


class Life:
    """A node on its way through the run.

    state, since   its NMT state, and from when on
    started        when it was started, None where it wasn't since it booted or was commanded otherwise
    fall           the emergency by which it left Operational, None where it didn't
    spans          the times in which it was operational
    switched_off   the number of the event that took its power
    """

    def __init__(self):
        self.state, self.since, self.started, self.fall = PRE_OPERATIONAL, 0, None, None
        self.spans, self.switched_off = [], None

    def become(self, state, time, fall=None):
        """It has a state from now on."""
        if state == self.state:
            return
        if self.state == OPERATIONAL:
            self.spans[-1][1] = time
        if state == OPERATIONAL:
            self.spans.append([time, None])
        self.state, self.since, self.fall = state, time, fall

    def restart(self, state, time):
        """A boot, a command or the loss of power: what started it before counts no more."""
        self.started = None
        self.become(state, time)

    def has_fallen(self):
        """Whether it was started, and isn't operational any more though nobody commanded that."""
        return self.fall is not None and self.state == PRE_OPERATIONAL


class PlannedRun:
    """Goes through the trace of a session.

    lives        the way of each node, by its number
    emergencies  the emergency messages in their order
    sent         the first and the last time of each identifier
    syncs        the times of SYNC
    boots        the boots of each node
    full         the times in which the bus has no pause
    is_started   whether the manager starts the network: at a moment at which each mandatory node is configured
    """

    def __init__(self, evidence, lines):
        self.evidence, self.project = evidence, evidence.project
        self.bit, self.end = 1000 // self.project.bitrate, self.project.horizon
        self.lives = {node: Life() for node in self.project.nodes}
        self.emergencies, self.sent, self.syncs, self.is_started = [], {}, [], False
        self.boots, self.full = boots.boots_of(lines), full_bus.spans_of(lines, self.bit)
        self._consumers = {node: consumers_of(evidence.node(node)) for node in self.project.nodes}
        self._watching, self._missed = None, {node: [] for node in self.project.nodes}
        self._waited, self._configured = self.project.mandatory & set(self.project.booted), set()
        self._disturbed, self._short, self._events = {}, {}, sorted(self.project.events.items(), key=by_time)
        self._pdos = {pdo.identifier for node in self.project.nodes for pdo in evidence.node(node).pdos(TPDO)}
        self._rpdos = {}
        for node in self.project.nodes:
            for rpdo in evidence.node(node).pdos(RPDO):
                self._rpdos.setdefault(rpdo.identifier, []).append(rpdo)
        for line in lines:
            if isinstance(line, Note):
                self._note(line)
            else:
                self._take_events(line.time)
                self._take(line)
        self._take_events(self.end)
        for life in self.lives.values():
            for span in life.spans[-1:]:
                span[1] = self.end if span[1] is None else span[1]

    def _note(self, note):
        """The manager notes that a node is configured, that it is lost, or that its boot has failed."""
        if note.what != CONFIGURED:
            self._configured.discard(note.node)
            return
        self._configured.add(note.node)
        self.is_started = self.is_started or self._waited <= self._configured

    # Events.

    def _take_events(self, until):
        """The events up to a time; some of the controller do nothing."""
        while self._events and self._events[0][1].time <= until:
            number, event = self._events.pop(0)
            life = self.lives.get(event.node)
            if self.project.is_idle(event):
                continue
            if event.kind == "power" and (life.state == OFF) == (event.what == "on"):
                life.restart(PRE_OPERATIONAL if event.what == "on" else OFF, event.time)
                life.switched_off = number if event.what == "off" else None
                self._disturb(event.node, number)
                self._forget(event.node)
            elif event.kind == "set" and event.entry == PRODUCER:
                self._disturb(event.node, number)
            elif event.kind == "set" and event.entry[0] == CONSUMERS:
                self._forget(event.node, event.entry[1], values.number_of(U32, event.what, event.node) or 0)
                self._disturb((event.node, event.entry[1]), number)
            elif event.kind == "nmt" and int(event.what) in RESETS:
                for node in [event.node] if event.node else self.lives:
                    self._disturb(node, number)

    def _disturb(self, what, number):
        """An event explains that a node isn't heard, or that a consumer fails, until the node boots and is heard."""
        self._disturbed[what] = [number, False]

    def _forget(self, node, sub=None, word=None):
        """Consumers of a node begin anew, with a value that is set; at a boot all do, and what waits is forgotten."""
        if sub is None:
            self._missed[node] = []
        for consumer in self._consumers.get(node, ()):
            if sub in (None, consumer.sub):
                before = consumer.watched
                consumer.set(consumer.configured if word is None else word)
                self._watching = self._watching if consumer.watched == before else None

    # Frames.

    def _take(self, frame):
        identifier, data = frame.identifier, frame.data
        self.sent.setdefault(identifier, [frame.time, frame.time])[1] = frame.time
        if identifier == 0x000 and len(data) == 2:
            self._command(*data, frame.time)
        elif identifier == 0x080:
            self.syncs.append(frame.time)
        elif 0x700 < identifier <= 0x77F and len(data) == 1:
            self._error_control(identifier - 0x700, data[0], frame.time)
        elif 0x600 < identifier <= 0x67F and data[1:3] == b"\x16\x10" and data[0] >> 5 == 1:
            self._forget(identifier - 0x600, data[3])
        elif 0x080 < identifier <= 0x0FF and len(data) == 8 and identifier not in self._pdos:
            self._emergency(identifier - 0x080, int.from_bytes(data[:2], "little"), frame)
        for rpdo in self._rpdos.get(identifier, ()):
            if len(data) < rpdo.size:
                self._short[rpdo.node] = rpdo, len(data)

    def _command(self, service, node, time):
        """An NMT command is delivered."""
        for each in [node] if node else list(self.lives):
            life = self.lives.get(each)
            if life is None or life.state == OFF:
                continue
            if service == START:
                life.become(OPERATIONAL, time)
                life.started = time
            elif service in (STOP, PREPARE) or service in RESETS:
                life.restart(STOPPED if service == STOP else PRE_OPERATIONAL, time)
                if service in RESETS:
                    self._forget(each)

    def _error_control(self, node, byte, time):
        """A boot-up message or a heartbeat of a node, for itself and for the others that watch it."""
        life, disturbed = self.lives.get(node), self._disturbed.get(node)
        if life and life.state != OFF and byte == 0:
            life.restart(PRE_OPERATIONAL, time)
            self._forget(node)
        for consumer in self._watchers(node):
            if consumer.node != node and self.lives[consumer.node].state != OFF:
                if consumer.fails_before(time):
                    self._missed[consumer.node].append(self._failure(consumer))
                consumer.heard, consumer.has_failed = time, False
        if disturbed and byte and disturbed[1]:
            del self._disturbed[node]
        elif disturbed and not byte:
            disturbed[1] = True

    def _watchers(self, node):
        """The consumers that watch a node."""
        if self._watching is None:
            self._watching = {}
            for several in self._consumers.values():
                for consumer in several:
                    self._watching.setdefault(consumer.watched, []).append(consumer)
        return self._watching.get(node, ())

    def _failure(self, consumer):
        """A consumer that fails now: its moment, itself, and the event that explains it."""
        explained = self._disturbed.get(consumer.watched) or self._disturbed.get((consumer.node, consumer.sub))
        consumer.has_failed = True
        return consumer.heard + consumer.time, consumer, explained[0] if explained else None

    def _emergency(self, node, code, frame):
        """An emergency message of a node; by that of a failed consumer it leaves Operational."""
        if node not in self.lives or code == 0:
            return
        found, start = Emergency(node, code, frame.time), frame.time - frame.bits * self.bit
        moment = start
        if code == MISSED:
            failing = [each for each in self._consumers[node] if each.fails_before(start + 1)]
            self._missed[node] += [self._failure(each) for each in failing]
            self._missed[node].sort(key=lambda each: each[0])
            if self._missed[node]:
                moment, found.consumer, found.event = self._missed[node].pop(0)
            life = self.lives[node]
            if life.state == OPERATIONAL and life.started <= moment:
                life.become(PRE_OPERATIONAL, frame.time, found)
        elif code == TOO_SHORT:
            found.short = self._short.get(node)
        self.emergencies.append(found)


def by_time(numbered):
    """By what events stand in their order."""
    number, event = numbered
    return event.time, number


def consumers_of(node):
    """The heartbeat consumers of a node once it is configured."""
    words = {sub: node.number_at(CONSUMERS, sub, U32) for sub in node.device.subs.get(CONSUMERS, ()) if sub}
    return [Consumer(node.number, sub, word) for sub, word in words.items() if word is not None]
