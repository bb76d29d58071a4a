"""Generated networks whose bus has much to carry, each by a number, the same on every version of Python.

Six to twelve nodes of one data sheet, started together; TPDOs at SYNC and at changes with inhibit times, heartbeats, and
values that change, some of them right before a SYNC. The time between two SYNC messages is chosen by how full the bus
is to be.
"""
from networks import Dice

HEAD = ["[1000]", "DataType=7", "[1017]", "DataType=6", "[DummyUsage]", "Dummy0007=1"]
PDOS = 4


def sheet():
    """A data sheet with four TPDOs, which are off, and values of eight bytes for each."""
    lines = list(HEAD)
    for number in range(PDOS):
        lines += [f"[{0x1800 + number:X}sub1]", "DataType=7", "DefaultValue=0x80000000"]
        for sub, kind in ((2, 5), (3, 6), (5, 6)):
            lines += [f"[{0x1800 + number:X}sub{sub}]", f"DataType={kind}"]
        lines += [f"[{0x1A00 + number:X}]", "ObjectType=9", "DataType=7", "CompactSubObj=2", f"[{0x1A00 + number:X}sub0]", "DataType=5"]
        for half in range(2):
            lines += [f"[{0x2000 + 2 * number + half:X}]", "DataType=7", "PDOMapping=1"]
    return lines


def bits(size):
    return 47 + 8 * size


class Bus:
    """A generated network; `lines` is its script."""

    def __init__(self, seed):
        self.dice = dice = Dice(seed)
        self.rate, self.share = dice.one([250, 500, 1000]), 0.2 + 0.75 * dice.below(1000) / 1000
        self.nodes = sorted(dice.some(range(1, 127), 6 + dice.below(7)))
        self.messages = []
        for node in self.nodes:
            self.messages += [self._message(node, tpdo) for tpdo in range(1, 2 + dice.below(PDOS))]
        names = dice.some(range(0x181, 0x57F), len(self.messages))
        self.beats = {node: dice.one([10, 20, 50]) for node in self.nodes if dice.often(0.6)}
        self.period = self._period()
        self.lines = self._settings() + [line for message, cob in zip(self.messages, names) for line in self._lines(message, cob)]
        self._events()

    def script(self):
        return "".join(f"{line}\n" for line in self.lines).encode()

    def _message(self, node, tpdo):
        """A message: node, TPDO, type, inhibit time and how many values of four bytes it carries."""
        dice = self.dice
        kind = dice.one([1, 1, 1, 1, 1, 2, 4, 255])
        return node, tpdo, kind, dice.one([20, 50, 100]) if kind == 255 else 0, dice.one([1, 2, 2, 2])

    def _period(self):
        """The microseconds from SYNC to SYNC with which the bus is as full as it is to be, between 1 and 50 ms."""
        bit = 1000 // self.rate
        at_sync = bits(0) + sum(bits(4 * values) / kind for _, _, kind, _, values in self.messages if kind != 255)
        others = sum(bits(4 * values) / (100 * inhibit) for _, _, kind, inhibit, values in self.messages if kind == 255)
        others += sum(bits(1) / (1000 * time) for time in self.beats.values())
        left = max(self.share - others * bit, 0.05)
        return min(max(int(at_sync * bit / left), 1000), 50_000)

    def _settings(self):
        lines = ["version 2", f"bitrate {self.rate}", "horizon 600000", f"manager 127 {self.period} {self.dice.one([0, 10])} 500"]
        lines += [f"eds device {len(sheet())}"] + sheet()
        for node in self.nodes:
            lines += [f"node {node} unit_{node} device", f"need {node} mandatory"]
            lines += [f"param {node} 1017 0 {self.beats[node]}"] if node in self.beats else []
        return lines

    def _lines(self, message, cob):
        node, tpdo, kind, inhibit, values = message
        name = f"m{node}_{tpdo}"
        return [f"message {name} {node} {tpdo} {kind} {inhibit} 0 {cob:X}"] + [
            f"source {name} {place} {0x2000 + 2 * (tpdo - 1) + place - 1:X} 0" for place in range(1, values + 1)]

    def _events(self):
        """Values of messages that are sent at changes: at any time, or a microsecond before a SYNC."""
        dice, events = self.dice, [message for message in self.messages if message[2] == 255]
        for number in range(1, 1 + 40 * len(events)):
            node, tpdo = dice.one(events)[:2]
            time = 250_000 + dice.below(340_000)
            if dice.often(0.5):
                time = time // self.period * self.period - 1
            self.lines.append(f"event {number} {time} set {node} {0x2000 + 2 * (tpdo - 1):X} 0 {number}")


def bus(seed):
    """The script of the network of a number."""
    return Bus(seed).script()
