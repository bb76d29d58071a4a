"""Random histories of saves: a script of a small network that is edited again and again, rightly and wrongly."""
import random

ENTRIES = (("6040", "00"), ("6041", "00"), ("6064", "00"), ("607A", "00"), ("6060", "00"), ("6200", "01"), ("6200", "02"), ("7777", "00"))
PARAMS = (("1017", "00"), ("1016", "01"), ("2001", "00"), ("2002", "00"), ("6060", "00"), ("6200", "01"), ("1018", "01"), ("1019", "00"))
VALUES = ("0", "1", "7", "20", "0x32", "250", "65536", "-3", "text here", "$NODEID+1", "0x00060014", "K\u00e4lte")
SHEET = """[1000]
DataType=7
AccessType=ro
DefaultValue={device}
[1016]
ObjectType=8
DataType=7
CompactSubObj=2
[1017]
ParameterName=Producer heartbeat time
DataType=6
DefaultValue={heartbeat}
[1018sub1]
DataType=7
AccessType=ro
DefaultValue=5
[1019]
DataType=5
[1400sub1]
DataType=7
DefaultValue=$NODEID+0x80000200
[1400sub2]
DataType=5
[1401sub1]
DataType=7
DefaultValue=0x80000000
[1401sub2]
DataType=5
[1600]
ObjectType=9
DataType=7
CompactSubObj=3
[1600sub0]
DataType=5
[1601]
ObjectType=9
DataType=7
CompactSubObj=3
[1601sub0]
DataType=5
[1800sub1]
DataType=7
DefaultValue=$NODEID+{tpdo}
[1800sub2]
DataType=5
DefaultValue=255
[1800sub3]
DataType=6
[1800sub5]
DataType=6
[1A00]
ObjectType=9
DataType=7
CompactSubObj=3
[1A00sub0]
DataType=5
DefaultValue=1
[1A00Value]
1=0x60410010
[1801sub1]
DataType=7
DefaultValue=0x80000000
[1801sub2]
DataType=5
[1A01]
ObjectType=9
DataType=7
CompactSubObj=3
[1A01sub0]
DataType=5
[2001]
ParameterName={name}
DataType=9
[2002]
DataType=6
HighLimit={high}
[6040]
ParameterName=Controlword
DataType=6
AccessType=rww
PDOMapping=1
[6041]
ParameterName=Statusword
DataType={width}
AccessType=ro
PDOMapping=1
[6060]
DataType=2
AccessType=rww
PDOMapping=1
[6064]
ParameterName=Position
DataType=4
AccessType=ro
PDOMapping=1
[607A]
DataType=4
AccessType=rww
PDOMapping=1
[6200]
ObjectType=8
ParameterName=Outputs
DataType=5
AccessType=rww
PDOMapping=1
CompactSubObj=2
"""


class Draft:
    """A script under way: what its parts are, from which its text is made. With controllers it begins with version 3 and a node
    that has the manager's number."""

    def __init__(self, chance, with_controllers=False):
        self.chance, self.versions = chance, (2, 3, 3) if with_controllers else (1, 2)
        self.sheets = {"d": self.sheet(), "e": self.sheet()}
        self.nodes = {5: ("pump", "d"), 6: ("guard", "e")}
        self.params, self.messages, self.events, self.odd = {}, {}, {}, []
        self.needs, self.version, self.counter = set(), 3 if with_controllers else 1, 0
        self.manager, self.bitrate, self.horizon, self.sync = 5 if with_controllers else 127, 1000, 30000, 5000
        for _ in range(8):
            self.change()

    def sheet(self):
        chance = self.chance
        return SHEET.format(device=chance.choice(("0", "0x191", "bad")), heartbeat=chance.choice((0, 7)), tpdo=chance.choice(("0x180", "0x80000180")),
                            name=chance.choice(("Label", "K\u00e4lte")), high=chance.choice((100, 9, 30000)), width=chance.choice((6, 6, 7)))

    # Changes, right and wrong ones.

    def change(self):
        """One change of the many kinds."""
        self.chance.choice((self.param, self.param, self.param, self.no_param, self.message, self.message, self.source, self.sink, self.sink,
                            self.unlink, self.no_message, self.event, self.event, self.no_event, self.node, self.rename, self.no_node,
                            self.resheet, self.setting, self.oddity, self.need))()

    def some_node(self):
        return self.chance.choice(sorted(self.nodes) or [5])

    def param(self):
        index, sub = self.chance.choice(PARAMS)
        self.params[self.some_node(), index, sub] = self.chance.choice(VALUES)

    def no_param(self):
        if self.params:
            self.params.pop(self.chance.choice(sorted(self.params)))

    def message(self):
        chance, name = self.chance, self.chance.choice("mno")
        numbers = f"{self.some_node()} {chance.randint(1, 3)} {chance.choice((0, 1, 2, 255, 254, 245))} {chance.choice((0, 10))} {chance.choice((0, 8))} "
        known = self.messages.get(name, (None, {}, {}, 0))
        self.messages[name] = (numbers + chance.choice(("0", "0", "201", "80")), known[1], known[2], chance.choice((0, 0, 2)))

    def source(self):
        for _, sources, _, _ in self.messages.values():
            sources[self.chance.randint(1, 2)] = self.chance.choice(ENTRIES)

    def sink(self):
        for _, _, sinks, _ in self.messages.values():
            sinks[self.chance.randint(1, 2), self.some_node()] = self.chance.choice(ENTRIES)

    def unlink(self):
        for _, sources, sinks, _ in self.messages.values():
            for links in (sources, sinks):
                if links:
                    links.pop(self.chance.choice(sorted(links)))

    def no_message(self):
        if self.messages:
            self.messages.pop(self.chance.choice(sorted(self.messages)))

    def event(self):
        chance, (index, sub) = self.chance, self.chance.choice(ENTRIES)
        what = chance.choice((f"set {self.some_node()} {index} {sub} {chance.randint(0, 99)}", f"set {self.some_node()} {index} {sub} {chance.randint(0, 99)}",
                              f"power {self.some_node()} {chance.choice(('on', 'off'))}", f"nmt {chance.choice((1, 2, 128, 129, 130))} {chance.choice((0, self.some_node()))}"))
        self.events[chance.randint(1, 6)] = f"{chance.randint(0, 320) * 100} {what}"

    def no_event(self):
        if self.events:
            self.events.pop(self.chance.choice(sorted(self.events)))

    def node(self):
        self.nodes[self.chance.randint(4, 9)] = (self.chance.choice(("lamp", "fan", "belt", "pump")), self.chance.choice(sorted(self.sheets)))

    def rename(self):
        names = [name for name, _ in self.nodes.values()]
        self.chance.shuffle(names)
        self.nodes = {node: (name, sheet) for (node, (_, sheet)), name in zip(self.nodes.items(), names)}

    def no_node(self):
        if len(self.nodes) > 1:
            self.nodes.pop(self.chance.choice(sorted(self.nodes)))

    def resheet(self):
        name = self.chance.choice(("d", "e", "f"))
        if name in self.sheets and len(self.sheets) > 1 and self.chance.random() < .3:
            self.sheets.pop(name)
        else:
            self.sheets[name] = self.sheet()

    def setting(self):
        self.manager, self.bitrate = self.chance.choice((127, 127, 6, 9)), self.chance.choice((1000, 1000, 500))
        self.horizon, self.sync = self.chance.choice((30000, 30000, 12000)), self.chance.choice((5000, 5000, 0, 1000))
        self.version, self.counter = self.chance.choice(self.versions), self.chance.choice((0, 0, 3))
        if self.version == 3:
            self.manager = self.chance.choice((self.some_node(), self.some_node(), 127))

    def need(self):
        self.needs ^= {self.some_node()}

    def oddity(self):
        lines = ("nonsense", "param 5 1400 1 1", "drop-node 5", "drop-eds d", "trace", "cdcf 5", "dcf 99", "event 1 5 set 5", "need 5 mandatory",
                 "# a comment", "project x", "horizon 99999999999", "sink m 1 5 6040 0", "drop-message m", "message m 5 1 1 0 0 0", "version 1")
        self.odd = self.odd[-3:] + [self.chance.choice(lines)] if self.chance.random() < .7 else []

    # Its text.

    def lines(self):
        """The commands; some data sheets stand in files beside the script."""
        lines = [f"version {self.version}"] if self.version > 1 else []
        lines += [f"bitrate {self.bitrate}", f"sync-counter {self.counter}"]
        for name, text in sorted(self.sheets.items()):
            lines += [f"eds {name} <{name}.eds"] if name == "d" else [f"eds {name} {text.count(chr(10))}\n{text.rstrip(chr(10))}"]
        lines += [f"manager {self.manager} {self.sync} 0 20"]
        lines += [f"node {node} {name} {sheet}" for node, (name, sheet) in sorted(self.nodes.items())]
        lines += [f"need {node} mandatory" for node in sorted(self.needs)]
        lines += [f"param {node} {index} {sub} {text}" for (node, index, sub), text in sorted(self.params.items())]
        for name, (numbers, sources, sinks, start) in sorted(self.messages.items()):
            lines += [f"message {name} {numbers}"] + ([f"start {name} {start}"] if start else [])
            lines += [f"source {name} {place} {index} {sub}" for place, (index, sub) in sorted(sources.items())]
            lines += [f"sink {name} {place} {node} {index} {sub}" for (place, node), (index, sub) in sorted(sinks.items())]
        return lines + [f"event {key} {text}" for key, text in sorted(self.events.items())] + [f"horizon {self.horizon}"] + self.odd

    def files(self):
        """The script and the data sheet beside it, as bytes."""
        return {"network.txt": "".join(line + "\n" for line in self.lines()).encode("cp1252"),
                "d.eds": self.sheets.get("d", "").encode("cp1252")}


def history(seed, saves, with_controllers=False):
    """The files of each save of a history."""
    draft = Draft(random.Random(seed), with_controllers)
    yield draft.files()
    for _ in range(saves):
        for _ in range(draft.chance.choice((1, 1, 1, 2, 5))):
            draft.change()
        yield draft.files()
