"""A machine that keeps to the network of test_conform.py, but not to the planned run: it has a pace of its own.

The nodes boot when they like, answer after milliseconds, have other values in their PDOs, and re-arm their heartbeats by a
clock that ticks each millisecond; the manager resets all nodes first, and reads entries while the machine runs.
"""
MILLI = 1000
HEARTBEAT, SYNC, MANAGER_HEARTBEAT = 40 * MILLI, 10 * MILLI, 50 * MILLI
WRITES = {5: ["2B17100028000000", "2B01200007000000", "23001801850100C0", "2F00180201000000", "2F001A0000000000", "23001A0108000020",
              "2F001A0001000000", "2300180185010040"],
          6: ["2316100178000500", "2B17100028000000"]}


class Machine:
    """The frames of some seconds: time, identifier and hexadecimal digits each; `dice` says what isn't laid down."""

    def __init__(self, dice, seconds):
        self.dice, self.end, self.frames = dice, seconds * 1000 * MILLI, []
        self.add(0, 0x000, "8200")
        started = max(self.boot(node, 300 * MILLI + dice.below(200 * MILLI)) for node in (5, 6))
        self.runs(started)
        self.frames.sort()

    def add(self, time, identifier, digits):
        self.frames.append((time, identifier, digits))

    def boot(self, node, time):
        """A node boots, is read and written, and started; when that was."""
        self.add(time, 0x700 + node, "00")
        time = self.talk(node, time, "4000100000000000", "4300100092010200")
        armed = None
        for write in WRITES[node]:
            time = self.talk(node, time, write, "60" + write[2:8] + "00000000")
            armed = time if write.startswith("2B1710") else armed
        time += 5 * MILLI
        self.add(time, 0x000, f"01{node:02X}")
        self.beats(0x700 + node, armed, HEARTBEAT, "05", before=(time, "7F"))
        return time

    def talk(self, node, time, request, answer):
        time += 200 + self.dice.below(3 * MILLI)
        self.add(time, 0x600 + node, request)
        time += 300 + self.dice.below(4 * MILLI)
        self.add(time, 0x580 + node, answer)
        return time

    def beats(self, identifier, time, period, digits, before=(0, "")):
        """Heartbeats, each armed when the one before it was sent, by up to 0.9 ms late."""
        time += period
        while time < self.end:
            self.add(time, identifier, before[1] if time < before[0] else digits)
            time += period + self.dice.below(900)

    def runs(self, started):
        """What comes while the machine runs."""
        self.beats(0x77F, self.dice.below(50 * MILLI), MANAGER_HEARTBEAT, "05")
        first, reads = started + 200 * MILLI, 0
        for number in range((self.end - first) // SYNC + 1):
            time = first + number * SYNC + self.dice.below(120)
            self.add(time, 0x080, "")
            self.add(time + 250 + self.dice.below(400), 0x185, f"{self.dice.below(101):02X}")
            if self.dice.often(0.05) and time > reads:
                reads = self.talk(6, time + 2 * MILLI, "4001200000000000", "4B01200000000000")

    def log(self):
        """The frames as a log of candump, with two of 29 bits and an error frame among them."""
        lines = [f"({1700000000 + time // 1000000}.{time % 1000000:06}) can0 {identifier:03X}#{digits}\n"
                 for time, identifier, digits in self.frames]
        others = [f"{lines[49].split(' can0 ')[0]} can0 {frame}\n" for frame in ("18FF0102#0102", "20000088#0000800000000000", "18FF0102#")]
        return "".join(lines[:50] + others + lines[50:])
