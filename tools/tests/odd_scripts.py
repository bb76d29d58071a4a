"""Generated scripts by a number: whole networks, networks that are damaged, and words and data sheets of all forms."""
from networks import Dice, Network

NUMBERS = ("0", "1", "5", "7", "08", "010", "0x10", "-1", "255", "256", "65536", "0xFFFFFFFF", "18446744073709551616", "$NODEID",
           "$NODEID+0x180", "0x80 + $NodeId", "$NODEID+", "abc", "", "10h", "TRUE", "1 ; c", "K\xe4lte", "00 11")
KEYS = ("DataType", "ObjectType", "AccessType", "PDOMapping", "DefaultValue", "LowLimit", "HighLimit", "ParameterValue",
        "ParameterName", "CompactSubObj", "CompactPDO", "NrOfEntries", "1", "02", "3")
SECTIONS = ("1000", "1001", "1016", "1016Value", "1017", "1018sub1", "1019", "1400sub1", "1600", "1800sub1", "1A00", "1A00Value",
            "2000", "2000sub0", "2000sub1", "2000SUB01", "2000Value", "2000Name", "DummyUsage", "DeviceComissioning", "FileInfo", "x")
TYPES = ("1", "2", "3", "4", "5", "6", "7", "8", "9", "0xA", "0xF", "0x15", "0x1B", "", "x")
COMMANDS = ("bitrate", "horizon", "manager", "version", "time-period", "sync-counter", "eds", "drop-eds", "node", "need", "drop-node", "param",
            "unparam", "message", "start", "drop-message", "source", "unsource", "sink", "unsink", "receive",
            "unreceive", "event", "drop-event", "dcf", "cdcf", "diag", "trace", "project", "help", "#", "<", "DataType=5", "[1017]")
WORDS = ("1", "2", "5", "127", "0", "1017", "2000", "6000", "1A00", "d", "e", "pump", "m", "n", "mandatory", "set", "power", "nmt",
         "on", "off", "<d.eds", "0x10", "-3", "255", "1000", "#", "x-1", "10000001")


class OddScript:
    """A generated script; `lines` are its lines."""

    def __init__(self, seed):
        self.dice = Dice(seed * 7 + 3)
        self.lines = Network(seed).lines if seed % 3 < 2 else self._words()
        if seed % 3 == 1:
            for _ in range(1 + self.dice.below(6)):
                self._damage()

    def text(self):
        text = "\n".join(self.lines).encode("latin-1", "replace") + b"\n"
        return text[:self.dice.below(len(text))] if self.dice.often(0.1) else text

    def _damage(self):
        """One line is taken out, doubled, moved, changed, or put in between."""
        dice, place = self.dice, self.dice.below(len(self.lines))
        line, kind = self.lines[place], self.dice.below(6)
        if kind == 0:
            del self.lines[place]
        elif kind == 1:
            self.lines.insert(place, line)
        elif kind == 2:
            self.lines.insert(dice.below(len(self.lines)), self.lines.pop(place))
        elif kind == 3:
            at = dice.below(len(line) + 1)
            self.lines[place] = line[:at] + dice.one("0xK=[];# \t\x07\xe4") + line[at + dice.below(2):]
        elif kind == 4:
            self.lines[place] = " ".join(dice.one(NUMBERS) if dice.often(0.3) else word for word in line.split(" "))
        else:
            self.lines.insert(place, self._command())
        self.lines = self.lines or ["diag"]

    def _command(self):
        return " ".join([self.dice.one(COMMANDS)] + [self.dice.one(WORDS) for _ in range(self.dice.below(7))])

    def _sheet(self, name):
        """A data sheet of odd sections and keys, and the command that takes it in, mostly with the right number."""
        lines = []
        for _ in range(1 + self.dice.below(14)):
            lines.append(f"[{self.dice.one(SECTIONS)}]")
            lines += [f"DataType={self.dice.one(TYPES)}"] if self.dice.often(0.8) else []
            lines += [f"{self.dice.one(KEYS)}={self.dice.one(NUMBERS)}" for _ in range(self.dice.below(5))]
            lines += [self.dice.one(["no key", "; comment", "", "[x", "=5"])] if self.dice.often(0.2) else []
        return [f"eds {name} {len(lines) + (self.dice.below(3) - 1 if self.dice.often(0.1) else 0)}"] + lines

    def _words(self):
        """Two data sheets, nodes of them, and commands of all forms."""
        lines = ["horizon 3000"] + self._sheet("d") + self._sheet("e") + ["node 1 one d", "node 5 pump e", "node 2 two d"]
        return lines + [self._command() for _ in range(30)] + [f"param {self.dice.one('125')} {section[:4]} {self.dice.below(3)} "
                                                              f"{self.dice.one(NUMBERS)}" for section in SECTIONS[:18]]


def odd_script(seed):
    """The bytes of the script of a number."""
    return OddScript(seed).text()
