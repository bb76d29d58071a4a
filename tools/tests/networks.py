"""Generated networks: scripts of whole machines, each by a number, the same on every version of Python.

A network has two to six nodes of up to three data sheets, with PDOs of different capacities, some of them on by
default; entries of all widths; parameters, messages with sources and sinks, and events. Most messages can be sent.
"""
import random

WIDTHS = {1: 1, 2: 8, 3: 16, 4: 32, 5: 8, 6: 16, 7: 32, 0x15: 64, 0x1B: 64}


class Dice:
    """Random choices that rest on `random` alone, which gives the same on every version of Python."""

    def __init__(self, seed):
        self._random = random.Random(seed).random

    def below(self, count):
        return int(self._random() * count)

    def one(self, choices):
        return choices[self.below(len(choices))]

    def often(self, share):
        return self._random() < share

    def some(self, choices, count):
        """That many of the choices, each once, in a random order."""
        rest = list(choices)
        return [rest.pop(self.below(len(rest))) for _ in range(min(count, len(rest)))]


class Sheet:
    """A generated data sheet.

    sent, taken, set  its entries that TPDOs carry, that RPDOs carry, and that a parameter can set, each with its data type
    """

    def __init__(self, dice, name):
        self.dice, self.name, self.lines = dice, name, []
        self.sent, self.taken, self.set = [], [], []
        self.tpdos = dice.one([2, 3, 4])
        self.section("FileInfo", FileName=f"{name}.eds")
        self.section("DeviceInfo", VendorName="Rehnfeld", ProductName=name.upper())
        kinds = {f"Dummy000{kind}": int(dice.often(0.8)) for kind in (1, 5, 6, 7)}
        self.section("DummyUsage", **kinds)
        self._communication()
        self._application()
        self._pdos(0x1400, 0x1600, dice.one([2, 3, 5]), 0x200)
        self._pdos(0x1800, 0x1A00, self.tpdos, 0x180)

    def section(self, name, **keys):
        self.lines += [f"[{name}]"] + [f"{key}={value}" for key, value in keys.items()] + [""] * self.dice.below(2)

    def entry(self, section, kind, **keys):
        self.section(section, ParameterName=f"Entry {section}", ObjectType="0x7", DataType=f"0x{kind:04X}", **keys)

    def _communication(self):
        dice = self.dice
        self.entry("1000", 7, AccessType="ro", DefaultValue=dice.one(["0x00020192", "0"]))
        self.entry("1001", 5, AccessType="ro", PDOMapping=1)
        self.section("1016", ParameterName="Consumer heartbeat time", ObjectType=8, DataType=7, CompactSubObj=3)
        self.entry("1017", 6, DefaultValue=dice.one(["0", "50", "$NODEID+0x10"]))
        self.entry("1018sub1", 7, AccessType="ro", DefaultValue="0x29C")
        self.entry("1019", 5, DefaultValue=0)

    def _application(self):
        """Entries of each width in both directions, and some that PDOs don't carry."""
        index = 0x2000
        for kind in WIDTHS:
            for access in self.dice.some(["ro", "rw", "rww", "rwr", "wo"], 2 + self.dice.below(3)):
                self._object(index, kind, access)
                index += 1
        self.entry(f"{index:04X}", 9, AccessType="rw", DefaultValue=self.dice.one(["", "label"]))
        self.set.append((index, 0, 9))
        self.entry(f"{index + 1:04X}", 8, AccessType="rw", DefaultValue="1.5")

    def _object(self, index, kind, access):
        """An entry of its own, or an array of three with or without values of the vendor."""
        subs = [0]
        if self.dice.often(0.7):
            self.entry(f"{index:04X}", kind, AccessType=access, PDOMapping=1, **self._limits(kind))
        else:
            subs = [1, 2, 3]
            self.section(f"{index:04X}", ParameterName=f"Array {index:04X}", ObjectType=8, DataType=kind, AccessType=access,
                         PDOMapping=1, CompactSubObj=3, **self._limits(kind))
            if self.dice.often(0.3):
                self.section(f"{index:04X}Value", NrOfEntries=1, **{str(self.dice.one(subs)): 1})
        keys = [(index, sub, kind) for sub in subs]
        self.sent += keys if access in ("ro", "rw", "rwr") else []
        self.taken += keys if access in ("rw", "rww", "wo") else []
        self.set += keys if access != "ro" else []

    def _limits(self, kind):
        return {"LowLimit": 0, "HighLimit": "0x60"} if kind in (5, 6) and self.dice.often(0.3) else {}

    def _pdos(self, communication, mapping, count, base):
        """PDOs of a direction: some switched on by default, with one entry mapped."""
        for number in range(count):
            room, is_on = self.dice.one([1, 4, 8, 64]), self.dice.often(0.2)
            entries = self.sent if base == 0x180 else self.taken
            index, sub, kind = self.dice.one(entries)
            self._communication_object(communication + number, base + 0x100 * number, is_on)
            first = f"0x{index:04X}{sub:02X}{WIDTHS[kind]:02X}" if is_on else "0"
            name = f"{mapping + number:04X}"
            self.section(name, ParameterName="Mapping", ObjectType=9, DataType=7, CompactSubObj=room)
            self.entry(f"{name}sub0", 5, DefaultValue=int(is_on))
            self.entry(f"{name}sub1", 7, DefaultValue=first)

    def _communication_object(self, index, identifier, is_on):
        name = f"{index:04X}"
        self.entry(f"{name}sub1", 7, DefaultValue=f"$NODEID+0x{identifier + (0 if is_on else 1 << 31):X}")
        self.entry(f"{name}sub2", 5, DefaultValue=255)
        for sub, kind in ((3, 6), (5, 6), (6, 5)):
            if self.dice.often(0.8):
                self.entry(f"{name}sub{sub}", kind, DefaultValue=0)


class Network:
    """A generated network; `lines` is its script."""

    def __init__(self, seed):
        self.dice = dice = Dice(seed)
        self.sheets = [Sheet(dice, f"device_{letter}") for letter in "abc"[:1 + dice.below(3)]]
        numbers = sorted(dice.some(range(1, 126), 2 + dice.below(5)))
        self.nodes = {number: dice.one(self.sheets) for number in numbers}
        self.lines = [f"bitrate {dice.one([125, 250, 500, 1000])}", "horizon 200000",
                      f"manager 127 {dice.one([0, 2000, 5000, 10000])} {dice.one([0, 100])} 500",
                      f"sync-counter {dice.one([0, 0, 4, 10])}"]
        for sheet in self.sheets:
            self.lines += [f"eds {sheet.name} {len(sheet.lines)}"] + sheet.lines
        self.lines += [f"node {number} unit_{number} {sheet.name}" for number, sheet in self.nodes.items()]
        self._parameters()
        for count in range(2 + dice.below(8)):
            self._message(f"{dice.one('kmpz')}{count}")
        self._events()

    def script(self):
        return "".join(f"{line}\n" for line in self.lines).encode()

    def _parameters(self):
        dice = self.dice
        for number, sheet in self.nodes.items():
            for index, sub, kind in dice.some(sheet.set, dice.below(6)):
                self.lines.append(f"param {number} {index:X} {sub} {self._value(kind)}")
            self.lines += [f"param {number} 1017 0 {20 + dice.below(100)}"] if dice.often(0.6) else []
            if dice.often(0.5):
                self.lines.append(f"param {number} 1016 1 0x{dice.one(list(self.nodes)):X}{250 + dice.below(50):04X}")

    def _value(self, kind):
        """A value of a data type: also what the default is, and what is beyond a limit."""
        if kind == 9:
            return self.dice.one(["front left", "x", "K=1; [2]"])
        if kind == 1:
            return self.dice.below(2)
        return self.dice.one(["0", "1", "0x21", "17", "$NODEID", "0x7F"])

    def _message(self, name):
        dice = self.dice
        sender = dice.one(list(self.nodes))
        sheet = self.nodes[sender]
        kind = dice.one([0, 1, 1, 2, 4, 254, 255, 255])
        inhibit, event = dice.one([0, 0, 50]), dice.one([0, 0, 100])
        cob = dice.one(["0", "0", "0", "0", f"{0x181 + dice.below(0x300):X}"])
        self.lines.append(f"message {name} {sender} {1 + dice.below(sheet.tpdos)} {kind} {inhibit} {event} {cob}")
        if dice.often(0.2):
            self.lines.append(f"start {name} {dice.below(4)}")
        self._values_of(name, sender)

    def _values_of(self, name, sender):
        """The sources of a message, of at most 64 bits, and their sinks, each as wide as its source."""
        dice, bits = self.dice, 0
        for position in range(1, 2 + dice.below(4)):
            index, sub, kind = dice.one(self.nodes[sender].sent)
            bits += WIDTHS[kind]
            if bits > 64:
                return
            self.lines.append(f"source {name} {position} {index:X} {sub}")
            others = [number for number in self.nodes if number != sender]
            for taker in dice.some(others, dice.below(3)):
                entries = [key for key in self.nodes[taker].taken if WIDTHS[key[2]] == WIDTHS[kind]]
                if entries:
                    self.lines.append("sink {} {} {} {:X} {}".format(name, position, taker, *dice.one(entries)[:2]))

    def _events(self):
        dice = self.dice
        for number in range(1, 1 + dice.below(12)):
            node = dice.one(list(self.nodes))
            time = 20000 + dice.below(170000)
            index, sub, kind = dice.one(self.nodes[node].sent)
            self.lines.append(f"event {number} {time} set {node} {index:X} {sub} {self._value(kind)}")


def network(seed):
    """The script of the network of a number."""
    return Network(seed).script()
