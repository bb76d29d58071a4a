"""What a simulated device does by itself once it is started (CiA 301): PDOs at SYNC, at changes and by event time, and heartbeats.

Emergency messages aren't among them, and its heartbeat consumers are off. Times are microseconds of the bus.
"""
from bus_device import OPERATIONAL, Abort, Device

SYNC, OVERFLOW = 0x080, 0x1019
RPDOS, TPDOS, TO_MAPPING = range(0x1400, 0x1600), range(0x1800, 0x1A00), 0x200
OFF, NEVER = 1 << 31, 1 << 62
TAKING = "wo", "rw", "rww"

# The identifiers that no PDO may have.
RESTRICTED = (range(0x080), range(0x101, 0x181), range(0x581, 0x600), range(0x601, 0x680), range(0x6E0, 0x700), range(0x701, 0x800))


class Pdo:
    """A PDO of a device.

    index       that of its communication object
    identifier  that of its frames, None while it doesn't work
    kind        its transmission type
    parts       the entries that are mapped, each with its bits
    """

    def __init__(self, device, index):
        self.device, self.index = device, index
        self.forget()

    def forget(self):
        """It remembers nothing, and goes by what its objects have now."""
        cob, self.kind = self.number(1, OFF), self.number(2, None)
        mapping, value = self.index + TO_MAPPING, self.device.value
        numbers = [value((mapping, sub)) for sub in range(1, 1 + value((mapping, 0)))]
        self.parts = [((number >> 16, number >> 8 & 0xFF), number & 0xFF) for number in numbers]
        is_on = self.device.state == OPERATIONAL and not cob & OFF and numbers and not any(cob & 0x7FF in each for each in RESTRICTED)
        self.identifier = cob & 0x7FF if is_on else None

    def number(self, sub, otherwise=0):
        """A number of its communication object."""
        return self.device.value((self.index, sub), otherwise)


class Tpdo(Pdo):
    """A TPDO.

    sent        the bytes that were sent last, None for none
    inhibited   until when it isn't sent; `event` when it is sent at the latest
    seen        how many writes its device had taken when its bytes were looked at last
    has_started, count  whether SYNCs count, and how many have counted
    """

    def forget(self):
        super().forget()
        self.sent, self.inhibited, self.event, self.has_started, self.count, self.seen = None, 0, NEVER, False, 0, -1

    def data(self):
        """The bytes that it has now."""
        whole = place = 0
        for key, bits in self.parts:
            whole |= (self.device.value(key) & (1 << bits) - 1) << place
            place += bits
        return whole.to_bytes((place + 7) // 8, "little")

    def at_sync(self, counter):
        """What it sends at a SYNC."""
        if self.identifier is None or self.kind not in range(241):
            return []
        if self.kind == 0:
            return self.send() if self.data() != self.sent else []
        return self.send() if self.counts(counter) and self.count % self.kind == 0 else []

    def counts(self, counter):
        """Whether a SYNC counts: with a start value from the one on that has it as its counter."""
        start = self.number(6)
        self.has_started |= not start or not self.device.value((OVERFLOW, 0)) or counter == start
        self.count += self.has_started
        return self.has_started

    def by_itself(self, now):
        """What it sends as its bytes have changed, or its event time is over."""
        if self.identifier is None or self.kind not in (254, 255) or now < self.inhibited:
            return []
        if now < self.event and (self.seen == self.device.writes or self.data() == self.sent):
            self.seen = self.device.writes
            return []
        inhibit, event = 100 * self.number(3), 1000 * self.number(5)
        self.inhibited, self.event = now + inhibit, now + max(inhibit, event) if event else NEVER
        return self.send()

    def send(self):
        self.sent, self.seen = self.data(), self.device.writes
        return [(self.identifier, self.sent)]

    def due(self, now):
        """When it may be sent next."""
        return min(self.inhibited if self.inhibited > now else NEVER, self.event)


class Rpdo(Pdo):
    """An RPDO; `kept` are the bytes that wait for SYNC, None for none."""

    def forget(self):
        super().forget()
        self.kept = None

    def take(self, data):
        """A frame of it came; one that is too short is dropped."""
        if 8 * len(data) < sum(bits for _, bits in self.parts):
            return
        if self.kind in range(241):
            self.kept = data
        elif self.kind in (254, 255):
            self.apply(data)

    def at_sync(self):
        kept, self.kept = self.kept, None
        if kept is not None:
            self.apply(kept)

    def apply(self, data):
        """Writes the mapped entries; a value that the device doesn't take leaves its entry as it was."""
        whole = int.from_bytes(data, "little")
        for key, bits in self.parts:
            value, whole = (whole & (1 << bits) - 1).to_bytes((bits + 7) // 8, "little"), whole >> bits
            entry = self.device.entries.get(key)
            if entry and entry.access in TAKING:
                try:
                    self.device.write(key, value)
                except Abort:
                    pass


class Running(Device):
    """A device whose PDOs go; `rpdos` and `tpdos` are all that its dictionary has, and `writes` counts what was written."""

    def __init__(self, number, sheet, **more):
        super().__init__(number, sheet, **more)
        self.writes = 0
        self.rpdos, self.tpdos = self.pdos(Rpdo, RPDOS), self.pdos(Tpdo, TPDOS)

    def pdos(self, kind, indexes):
        return [kind(self, index) for index in indexes if (index, 1) in self.entries and (index + TO_MAPPING, 0) in self.entries]

    def value(self, key, otherwise=0):
        """The number that an entry has."""
        entry = self.entries.get(key)
        return int.from_bytes(entry.data, "little") if entry else otherwise

    def process(self):
        """The entries that its RPDOs write."""
        return {key for rpdo in self.rpdos if rpdo.identifier is not None for key, _ in rpdo.parts}

    def forget(self, is_meant=lambda pdo: True):
        for pdo in filter(is_meant, self.rpdos + self.tpdos):
            pdo.forget()

    def write(self, key, data):
        super().write(key, data)
        self.writes += 1
        self.forget(lambda pdo: key[0] in (pdo.index, pdo.index + TO_MAPPING))

    def command(self, service):
        before, answers = self.state, super().command(service)
        if self.state != before:
            self.forget()
        return answers

    def boot(self):
        answers = super().boot()
        self.forget()
        return answers

    def take(self, identifier, data):
        answers = super().take(identifier, data)
        if self.is_dead or self.state != OPERATIONAL:
            return answers
        if identifier == SYNC:
            return answers + self.at_sync(data[0] if len(data) == 1 else None)
        for rpdo in self.rpdos:
            if rpdo.identifier == identifier:
                rpdo.take(data)
        return answers

    def at_sync(self, counter):
        for rpdo in self.rpdos:
            rpdo.at_sync()
        return [frame for tpdo in self.tpdos for frame in tpdo.at_sync(counter)]

    def by_itself(self, now):
        """What it sends at a moment without being asked."""
        frames = self.heartbeat(now)
        return frames if self.is_dead else frames + [frame for tpdo in self.tpdos for frame in tpdo.by_itself(now)]

    def due(self, now):
        """The next moment at which it may send by itself."""
        return min([NEVER if self.beat is None else self.beat] + [tpdo.due(now) for tpdo in self.tpdos])
