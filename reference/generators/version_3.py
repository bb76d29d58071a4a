"""Scripts of version 3, small and nasty.

A sheet is made together with what it can do (class Sheet), so that most messages fit the PDOs of their nodes; then some
commands are spoiled on purpose. Those of `vendors` have no type that only version 3 has, and no controller; those of `types`
have all types."""
from typing import Dict, List

from rules.values import OF_VERSION_3

# ------------------------------------------------------------------ entries

TYPES = {0x2000: 0x05, 0x2001: 0x01, 0x2002: 0x06, 0x2003: 0x1B, 0x2004: 0x02, 0x2005: 0x16,
         0x2006: 0x18, 0x2007: 0x19, 0x2008: 0x1A, 0x2009: 0x10, 0x200A: 0x12, 0x200B: 0x13,
         0x200C: 0x14, 0x200D: 0x08, 0x200E: 0x11, 0x200F: 0x07, 0x2010: 0x09, 0x2011: 0x15,
         0x2012: 0x03, 0x2013: 0x04, 0x2014: 0x0A}
BITS = {0x01: 1, 0x02: 8, 0x03: 16, 0x04: 32, 0x05: 8, 0x06: 16, 0x07: 32, 0x08: 32, 0x10: 24,
        0x11: 64, 0x12: 40, 0x13: 48, 0x14: 56, 0x15: 64, 0x16: 24, 0x18: 40, 0x19: 48, 0x1A: 56,
        0x1B: 64}
DUMMY = {1: 0x0001, 8: 0x0005, 16: 0x0006, 32: 0x0007}
OTHER_DUMMY = {8: 0x0002, 16: 0x0003, 32: 0x0004}
WIDTHS: Dict[int, List[int]] = {}
for _index, _kind in TYPES.items():
    if _kind in BITS:
        WIDTHS.setdefault(BITS[_kind], []).append(_index)
PATTERNS = [[8], [8], [8, 16], [16], [32], [1, 8], [8, 8], [24], [24, 40], [40], [48, 16], [56, 8],
            [56], [48], [64], [32, 32], [1, 1, 8], [16, 8, 32], [24, 8, 32], [1, 24]]
COMMON = [[8], [8], [16], [32], [64]]                 # so that many PDOs fit one another
USUAL_TYPES = {index: kind for index, kind in TYPES.items() if kind not in OF_VERSION_3}
USUAL_WIDTHS = {BITS[kind] for kind in USUAL_TYPES.values() if kind in BITS}
USUAL_PATTERNS = [pattern for pattern in PATTERNS if USUAL_WIDTHS.issuperset(pattern)]

DECIMALS = [b"0", b"1", b"-1", b"2.5", b"0.1", b"-0", b"+0", b"-0.0", b".5", b"5.", b"1e3", b"-1E-3",
            b"+1.5e+2", b"1e38", b"3.4028234e38", b"3.4028235677973366e38",
            b"340282356779733661637539395458142568447", b"1e-45", b"7.0064923216240853546e-46",
            b"7.0064923216240853547e-46", b"1e-400", b"-1e-400", b"0e99999999999999999999",
            b"16777217", b"16777219", b"9007199254740993", b"1.00000005960464477539062500000000001",
            b"1.000000059604644775390625", b"0.1000000000000000055511151231257827021181583404541015625",
            b"2.2250738585072011e-308", b"4.9e-324", b"1.7976931348623157e308",
            b"1e-5000000000000000000000", b"0000012.5000", b"100", b"123456789.125e-3", b"010",
            b"1e00000000000000000000000000002", b"1" + b"0" * 60 + b"e-60", b"0." + b"0" * 60 + b"1e61",
            b"-" + b"9" * 40 + b"e-50", b"0.5e-45", b"1.4012984643248170709e-45", b"-.0e1", b"00.10e-00"]
NO_DECIMALS = [b"0x3F800000", b"inf", b"nan", b"-Infinity", b"$NODEID", b"$NODEID+1", b"1e", b"e5", b".",
               b"1 000", b"--1", b"1.2.3", b"+", b"1e+", b"1,5", b"3.4028235677973367e38", b"1e39",
               b"340282356779733661637539395458142568448", b"1e309", b"1.7976931348623159e308",
               b"1e99999999999999999999", b"1_0", b"-.e1", b"1f", b"0x1p3", b"+-1", b"1e5.0", b"Inf"]


def integer_texts(r, kind):
    """Mostly values of the type; edges and beyond them too."""
    bits, signed = BITS[kind], kind in (0x02, 0x03, 0x04, 0x10, 0x12, 0x13, 0x14, 0x15)
    low, high = (-2**(bits - 1), 2**(bits - 1) - 1) if signed else (0, 2**bits - 1)
    n = r.choice([0, 1, 2, 5, 0x11, 0x55 % (high + 1), high, low, r.randint(low, high)])
    forms = [b"%d" % n, b"%d" % n, b"%d" % n, b"$NODEID", b"$NODEID + 0x10", b"0x%X" % (2**bits - 1),
             b"0x%X" % abs(n), b"0%o" % abs(n)]
    if r.random() < 0.12:
        forms = [b"%d" % (high + 1), b"%d" % (low - 1), b"0x%X" % 2**bits, b"-0x1", b"1.5", b"1e3", b"",
                 b"0x%X+$NODEID" % high, b"$NODEID+%d" % high, b"x"]
    return r.choice(forms) or b"?"


def text_of(r, index):
    kind = TYPES[index]
    if kind in (0x08, 0x11):
        if r.random() < 0.3:
            return b"%s%d.%de%d" % (r.choice([b"", b"-"]), r.randrange(10**r.randrange(1, 12)),
                                    r.randrange(10**r.randrange(1, 20)), r.randrange(-60, 50))
        return r.choice(DECIMALS if r.random() < 0.8 else NO_DECIMALS)
    if kind == 0x01:
        return r.choice([b"0", b"1", b"1", b"2", b"1.0"])
    if kind == 0x09:
        return r.choice([b"some text", b"x", b"0.1"])
    if kind == 0x0A:
        return r.choice([b"AB", b"00112233445566778899", b"A", b"1.5"])
    return integer_texts(r, kind)


# ------------------------------------------------------------------- sheets

class Pdo:
    """What one PDO of a sheet has.  access: sub -> access, of the subs that are there.  default:
    sub -> number (C:01 as (number, with $NODEID)).  mapping: the entries that stand, or None
    where it can be written; places: how many can be written."""

    def __init__(self, base, number):
        self.base, self.number = base, number
        self.c, self.m = base + number - 1, base + number - 1 + 0x200
        self.access, self.default, self.mapping, self.places = {}, {}, None, 0

    def open(self):
        return self.access[1] in (b"rw", b"wo", b"rww")

    def fixed(self, node):
        number, formula = self.default[1]
        number += node if formula else 0
        return None if number >> 31 or number >> 29 & 1 else number & 0x7FF

    def free(self, sub):
        """It can be set: C:02 and C:05 of a closed one too."""
        return (self.open() or sub in (2, 5)) and self.access.get(sub) in (b"rw", b"wo", b"rww")


FIXED = [b"const", b"ro", b"const"]
FREE = [b"rw", b"rw", b"rw", b"rww", b"wo"]
PREDEFINED = {0x1800: 0x180, 0x1400: 0x200}


def alike(source, sink):
    """Both of one REAL type, or neither of one."""
    kinds = TYPES.get(source), TYPES.get(sink)
    return kinds[0] == kinds[1] or not {0x08, 0x11} & set(kinds)


class Sheet:
    def __init__(self, r, name, has_types):
        self.r, self.name, self.lines = r, name, []
        self.types, self.patterns = (TYPES, PATTERNS) if has_types else (USUAL_TYPES, USUAL_PATTERNS)
        self.access = {}
        self._dummies()
        self._entries()
        self.pdos = {0x1800: [], 0x1400: []}
        if r.random() < 0.15:
            self._twin_of_sync()
        for base in (0x1800, 0x1400):
            numbers = sorted(r.sample([1, 2, 3, 4], r.choice([1, 2, 2, 3])) + r.choice(
                [[], [], [], [5], [512], [6, 9]]))
            for number in numbers:
                pdo = Pdo(base, number)
                self._pdo(pdo)
                self.pdos[base].append(pdo)

    def section(self, name, *pairs):
        self.lines.append(b"[%s]" % name)
        self.lines += [b"%s=%s" % pair for pair in pairs if pair[1] is not None]

    def _dummies(self):
        r = self.r
        self.dummies = {k for k in (1, 5, 6, 7) if r.random() < 0.85}
        self.section(b"DummyUsage", *((b"Dummy000%d" % k, b"1") for k in sorted(self.dummies)))

    def _entries(self):
        r = self.r
        self.section(b"1000", (b"DataType", r.choice([b"7", b"7", b"7", b"0x16"])),
                     (b"AccessType", b"ro"), (b"DefaultValue", r.choice([b"0", b"0", b"0x191"])))
        self.section(b"1001", (b"DataType", b"5"), (b"AccessType", b"ro"), (b"PDOMapping", b"1"))
        if r.random() < 0.5:
            self.section(b"1005", (b"DataType", b"7"),
                         (b"DefaultValue", r.choice([b"0x80", b"0x80", b"0x40000080", b"0x185"])))
        self.section(b"1016", (b"ObjectType", b"8"), (b"DataType", b"7"), (b"CompactSubObj", b"2"))
        if r.random() < 0.92:
            self.section(b"1017", (b"DataType", b"6" if r.random() < 0.95 else b"7"),
                         (b"DefaultValue", r.choice([None, b"0", b"4"])),
                         (b"PDOMapping", r.choice([None, b"1"])))
        if r.random() < 0.4:
            self.section(b"1019", (b"DataType", b"5"), (b"DefaultValue", r.choice([b"0", b"3"])))
        for index, kind in self.types.items():
            if r.random() < 0.05:
                continue
            access = r.choice([b"rw"] * 12 + [b"rww", b"wo", b"rwr", b"ro", b"const"])
            self.access[index] = access
            real = kind in (0x08, 0x11)
            default = text_of(r, index) if r.random() < (0.5 if real else 0.2) else None
            low = r.choice([None, None, None, b"-5", b"0", b"1.5"])
            self.section(b"%04X" % index, (b"DataType", b"0x%04X" % kind), (b"AccessType", access),
                         (b"PDOMapping", None if r.random() < 0.03 else b"1"),
                         (b"DefaultValue", default),
                         (b"LowLimit", low if r.random() < 0.15 else None),
                         (b"HighLimit", b"200" if r.random() < 0.05 else None),
                         (b"ParameterValue", text_of(r, index) if r.random() < 0.06 else None))

    def _twin_of_sync(self):
        """A TPDO with the identifier of SYNC that nothing turns off."""
        for name, kind, value in ((b"1806sub1", b"7", b"0x80"), (b"1806sub2", b"5", b"255"),
                                  (b"1806sub5", b"6", b"1"), (b"1A06sub0", b"5", b"1"),
                                  (b"1A06sub1", b"7", b"0x20000008")):
            self.section(name, (b"DataType", kind), (b"AccessType", b"const"),
                         (b"DefaultValue", value))

    def entry(self, width, sends, source=None):
        """An entry of that width that can be sent, or taken; of a REAL mostly to its like."""
        good = (b"rw", b"ro", b"rwr", b"const") if sends else (b"rw", b"wo", b"rww")
        found = [i for i in WIDTHS[width] if self.access.get(i) in good]
        if source is not None and self.r.random() < 0.85:
            found = [i for i in found if alike(source, i)]
        return self.r.choice(found) if found else None

    def _items(self, pattern, sends):
        """Mapping entries (index, width) for a pattern of widths; dummies in RPDOs too."""
        items = []
        for width in pattern:
            index = self.entry(width, sends)
            dummy = DUMMY.get(width)
            if not sends and dummy in self.dummies and self.r.random() < (
                    0.5 if len(pattern) > 1 else 0.1):
                index = self.r.choice([dummy, OTHER_DUMMY.get(width, dummy)])
            if index is None:
                return None
            items.append((index, width))
        return items

    def _cob(self, pdo):
        r = self.r
        usual = PREDEFINED[pdo.base] + 0x100 * (pdo.number - 1) if pdo.number <= 4 else 0
        number, formula = (usual, True) if usual else (r.randrange(0x681, 0x690), False)
        if r.random() < 0.4:
            number, formula = r.choice([0x185, 0x186, 0x191, 0x205, 0x285, 0x385, 0x1FF, 0x500,
                                        0x681, 0x682]), False
        number |= r.choice([0, 0, 0, 1 << 31])        # on or off
        if pdo.base == 0x1800:
            number |= r.choice([0, 1 << 30])
        if r.random() < 0.06:
            number |= 1 << 29
        if r.random() < 0.09:
            number, formula = r.choice([0x80, 0x80, 0x600, 0x181, 0x100, 0x580, 0x701, 0]), False
        if not pdo.open() and r.random() < 0.75:
            number &= ~(1 << 31 | 1 << 29)
        return number, formula

    def _pdo(self, pdo):
        r = self.r
        style = r.choice(["open", "open", "closed", "closed", "timed", "half", "half", "half"])
        free = {"open": 0.96, "closed": 0.1, "timed": 0.1, "half": 0.6}[style]

        def access():
            return r.choice(FREE) if r.random() < free else r.choice(FIXED)

        pdo.access[1] = (r.choice(FREE) if style == "open" or (style == "half" and r.random() < 0.7)
                         else r.choice(FIXED))
        pdo.default[1] = self._cob(pdo)
        pdo.access[2], pdo.default[2] = access(), r.choice([255, 255, 255, 254, 1, 0, 2, 240])
        for sub, values in ((3, [0, 0, 0, 5, 10]), (5, [0, 0, 0, 2, 20]), (6, [0, 0, 0, 2])):
            if r.random() < 0.65:
                pdo.access[sub], pdo.default[sub] = access(), r.choice(values)
        if style == "timed":                          # closed, but its type or timer can be set
            for sub in r.choice([[2], [5], [2, 5], [2, 5], [2, 3, 5, 6]]):
                pdo.access[sub] = r.choice(FREE)
                pdo.default.setdefault(sub, 0)
        if r.random() < 0.01:
            del pdo.access[2]
        self._print_communication(pdo)
        self._print_mapping(pdo, access)

    def _print_communication(self, pdo):
        r, c = self.r, pdo.c
        number, formula = pdo.default[1]
        text = b"%s0x%X" % (b"$NODEID+" if formula else b"", number)
        if (number, formula) == (0, False):
            text = r.choice([None, b"", b"0", b"junk"])
        self.section(b"%04Xsub1" % c, (b"DataType", b"7"), (b"AccessType", pdo.access[1]),
                     (b"DefaultValue", text),
                     (b"HighLimit", r.choice([b"0x7FFFFFFF", b"0x400006FF", b"$NODEID+0x800001FF"])
                      if r.random() < 0.04 else None),
                     (b"LowLimit", r.choice([b"1", b"0x80000000"]) if r.random() < 0.02 else None))
        for sub, kind in ((2, 5), (3, 6), (5, 6), (6, 5)):
            if sub in pdo.access:
                if r.random() < 0.01:
                    kind = r.choice([5, 6, 7, 0x16])
                self.section(b"%04Xsub%X" % (c, sub), (b"DataType", b"%d" % kind),
                             (b"AccessType", pdo.access[sub]),
                             (b"DefaultValue", b"%d" % pdo.default[sub]),
                             (b"LowLimit", b"1" if r.random() < (0.02 if sub == 2 else 0.05) else None),
                             (b"HighLimit", r.choice([b"10", b"253", b"-1", b"x"])
                              if r.random() < 0.03 else None))

    def _print_mapping(self, pdo, access):
        r, m = self.r, pdo.m
        items = self._items(r.choice(COMMON if r.random() < 0.45 else self.patterns),
                            pdo.base == 0x1800) or []
        writable = pdo.open() and r.random() < 0.6
        accesses = [r.choice(FREE) if writable else access() for _ in range(9)]
        if not writable and r.random() < 0.8:
            accesses[r.randrange(3)] = b"const"
        pdo.places = r.choice([2, 3, 4, 8]) if writable else max(len(items), 1)
        if not items and r.random() < 0.7:
            accesses[0] = b"rw"
        pdo.mapping = None if writable else items
        if r.random() < 0.02:
            return                                    # no M:00
        count = len(items) + (1 if r.random() < 0.015 else 0)
        if writable and r.random() < 0.3:             # as most sheets have it: one section
            self.section(b"%04X" % m, (b"ObjectType", b"9"), (b"DataType", b"7"),
                         (b"CompactSubObj", b"%d" % pdo.places))
            self.section(b"%04Xsub0" % m, (b"DataType", b"5"), (b"AccessType", accesses[0]))
            return
        self.section(b"%04Xsub0" % m, (b"DataType", b"5"), (b"AccessType", accesses[0]),
                     (b"DefaultValue", b"%d" % count),
                     (b"LowLimit", b"1" if r.random() < 0.02 else None),
                     (b"HighLimit", b"1" if r.random() < 0.02 else None))
        for sub in range(1, pdo.places + 1):
            if r.random() < 0.01:
                continue
            default = None
            if sub <= len(items):
                default = b"0x%08X" % (items[sub - 1][0] << 16 | items[sub - 1][1])
            self.section(b"%04Xsub%X" % (m, sub), (b"DataType", b"7"), (b"AccessType", accesses[sub]),
                         (b"DefaultValue", default),
                         (b"HighLimit", b"0x2003FFFF" if r.random() < 0.01 else None))


# ----------------------------------------------------------------- networks

class Network:
    def __init__(self, r, has_types, has_controllers):
        self.r, self.out, self.has_types, self.has_controllers = r, [], has_types, has_controllers
        self.types = list(TYPES if has_types else USUAL_TYPES)
        self.messages, self.receives, self.version, self.heartbeat = {}, {}, 3, 0
        self.consumers_of = {}
        self.used_rpdos, self.identifiers, self.used_tpdos = set(), set(), set()

    def say(self, text, *arguments):
        self.out.append(text % arguments if arguments else text)

    def eds(self, sheet):
        self.say(b"eds %s %d", sheet.name, len(sheet.lines))
        self.out += sheet.lines

    def queries(self, everything=False):
        r = self.r
        for word in (b"diag", b"dcf", b"cdcf", b"project", b"trace"):
            if word in (b"dcf", b"cdcf"):
                for node in self.nodes:
                    if everything or r.random() < 0.4:
                        self.say(b"%s %d", word, node)
            elif everything or r.random() < 0.5:
                self.say(word)

    def begin(self):
        r = self.r
        late = r.random() < 0.25                      # the version comes behind the sheets
        if late and r.random() < 0.5:
            self.say(b"version 2")
        if not late:
            self.say(b"version 3")
        self.say(b"bitrate %d", r.choice([1000] * 12 + [500, 500, 500, 250, 125, 50, 20, 10]))
        self.say(b"horizon %d", r.choice([12000, 20000, 25000, 30000, 40000]))
        self.sheets = [Sheet(r, name, self.has_types) for name in r.sample([b"a", b"b", b"c"], r.choice([2, 2, 3]))]
        for sheet in self.sheets:
            self.eds(sheet)
        numbers = r.sample([1, 2, 5, 6, 7, 17, 126, 127], r.choice([2, 3, 3, 4]))
        if r.random() < 0.03:
            numbers = numbers[:1]
        self.manager = r.choice(numbers) if self.has_controllers and r.random() < 0.6 else r.choice([3, 127, 4])
        if not self.has_controllers and self.manager in numbers:
            self.manager = 99
        self.nodes = {n: r.choice(self.sheets) for n in numbers}
        if late:
            self.try_early(numbers)
            self.say(b"version 3")
        self.set_manager(self.manager)
        if r.random() < 0.3:
            self.say(b"sync-counter %d", r.choice([2, 3, 10]))
        for n, sheet in sorted(self.nodes.items()):
            self.say(b"node %d n%d %s", n, n, sheet.name)
        self.mandatory()

    def try_early(self, numbers):
        """Refusals of versions 1 and 2."""
        self.say(b"manager %d 0 0 500", numbers[0])
        self.say(b"node %d early %s", numbers[0], self.sheets[0].name)
        self.say(b"receive m %d 0 0", numbers[0])
        self.say(b"unreceive m %d", numbers[0])
        self.say(b"time-period 1000 5")
        for n in numbers[1:]:
            self.say(b"node %d n%d %s", n, n, self.nodes[n].name)
            self.params_of(n)
        self.say(b"diag")
        self.say(b"dcf %d", numbers[-1])

    def set_manager(self, number):
        r = self.r
        self.sync, self.heartbeat = r.choice([0, 1000, 2000, 3000]), r.choice([0, 0, 2, 3, 4, 5])
        self.say(b"manager %d %d %d %d", number, self.sync, self.heartbeat,
                 r.choice([1, 3, 500, 500, 500, 500]))
        if r.random() < 0.3:
            self.say(b"time-period %d %d", r.choice([0, 1000, 1500, 2000, 5000]), r.choice([0, 5, 17000, 65535]))

    def mandatory(self):
        r = self.r
        often = r.choice([0, 0.3, 0.3, 0.3, 0.95])
        for n in self.nodes:
            if r.random() < often:
                self.say(b"need %d mandatory", n)

    def params_of(self, n):
        r = self.r
        if r.random() < 0.3:
            self.say(b"param %d 1017 0 %d", n, r.choice([1, 2, 3, 5]))
        if n == self.manager and r.random() < 0.5:
            self.say(b"param %d 1017 0 %d", n, self.heartbeat)
        if r.random() < 0.35:
            watched = r.choice(list(self.nodes) + [self.manager, self.manager, n])
            self.say(b"param %d 1016 %d 0x%X", n, r.choice([1, 2]),
                     watched << 16 | r.choice([2, 3, 4, 6]))
        if r.random() < 0.15:
            self.say(b"param %d 1019 0 %d", n, r.choice([0, 2, 3]))
        for index in r.sample(self.types, r.choice([0, 1, 1, 2])) + r.choice(
                [[], [], [0x200D], [0x200E]] if self.has_types else [[], []]):
            self.say(b"param %d %04X 0 %s", n, index, text_of(r, index))

    # ------------------------------------------------------------- messages

    def message(self, name):
        """A message that fits one TPDO, with consumers that it fits."""
        r = self.r
        choices = [(n, p) for n, sheet in self.nodes.items() for p in sheet.pdos[0x1800]]
        if r.random() < 0.94:
            choices = [c for c in choices if self.can_send(*c)] or choices
        node, tpdo = r.choice(choices)
        sheet = self.nodes[node]
        if tpdo.mapping is not None:
            items = tpdo.mapping
        else:
            patterns = [p for p in sheet.patterns if len(p) <= tpdo.places]
            items = sheet._items(r.choice(self.wanted_patterns(node, patterns)), True) or []
        kind = r.choice([255, 255, 255, 254, 0, 1, 2]) if tpdo.free(2) else tpdo.default[2]
        if kind >= 254 and r.random() < 0.3:
            kind = r.choice([254, 255])               # both defaults serve both
        if tpdo.free(2) and r.random() < 0.04:
            kind = r.choice([252, 253, 241, 251])
        numbers = [r.choice(values) if tpdo.free(sub) else
                   (tpdo.default[sub] if sub in tpdo.access else 0)
                   for sub, values in ((3, [0, 0, 10, 25]), (5, [0, 0, 2, 5]))]
        closed_id = None if tpdo.open() else tpdo.fixed(node)
        consumers = self.consumers(node, items, kind, closed_id)
        cob = self.identifier(consumers, closed_id)
        self.used_tpdos.add((node, tpdo.number))
        self.say(b"message %s %d %d %d %d %d %X", name, node, tpdo.number, kind, *numbers, cob)
        self.messages[name] = node
        self.consumers_of[name] = [(n, p.number) for n, p, _ in consumers]
        start = r.choice([0, 0, 1, 2]) if tpdo.free(6) else tpdo.default.get(6, 0)
        if start:
            self.say(b"start %s %d", name, start)
        step = r.choice([1, 1, 1, 3])
        for k, (index, _) in enumerate(items):
            self.say(b"source %s %d %04X 0", name, 1 + step * k, index)
        for consumer, rpdo, sinks in consumers:
            for k, index in sinks:
                self.say(b"sink %s %d %d %04X 0", name, 1 + step * k, consumer, index)
            self.receive(name, consumer, rpdo)
        others = [n for n in self.nodes if n not in [c for c, _, _ in consumers]]
        if others and r.random() < 0.06:              # of no consumer
            n = r.choice(others)
            self.say(b"receive %s %d %d %d", name, n, r.choice(self.nodes[n].pdos[0x1400]).number,
                     r.choice([0, 20]))
            self.receives[name, n] = (1, 0)
        if r.random() < 0.12:                         # the controller's producer time
            if node == self.manager:
                self.say(b"source %s 1 1017 0", name)
            elif self.manager in [c for c, _, _ in consumers]:
                self.say(b"sink %s 1 %d 1017 0", name, self.manager)
        if r.random() < 0.08:
            self.spoil(name, node)

    def can_send(self, node, tpdo):
        if (node, tpdo.number) in self.used_tpdos or tpdo.mapping == []:
            return False
        fixed = tpdo.fixed(node)
        return tpdo.open() or (fixed is not None and fixed > 0x180 and fixed not in self.identifiers)

    def wanted_patterns(self, node, patterns):
        """Mostly one that some closed or constant RPDO of another node has."""
        standing = [[w for _, w in p.mapping] for n, sheet in self.nodes.items() if n != node
                    for p in sheet.pdos[0x1400] if p.mapping
                    and (n, p.number) not in self.used_rpdos]
        standing = [p for p in standing if p in patterns]
        return standing if standing and self.r.random() < 0.75 else patterns

    def consumers(self, sender, items, kind, closed_id):
        """[(node, Pdo, [(k, index)])] of RPDOs that fit."""
        r, found = self.r, []
        others = [n for n in self.nodes if n != sender]
        r.shuffle(others)
        wanted_id = closed_id
        for n in others[:r.choice([0, 1, 1, 1, 2, 3])]:
            rpdos = list(self.nodes[n].pdos[0x1400])
            rpdos.sort(key=lambda p: (p.open(), p.mapping is None, r.random()))
            for rpdo in rpdos:
                sinks = self.sinks(n, rpdo, items, kind)
                if sinks is None or (n, rpdo.number) in self.used_rpdos:
                    continue
                if not rpdo.open():
                    fixed = rpdo.fixed(n)
                    if fixed is None or wanted_id not in (None, fixed) or (
                            wanted_id is None and (fixed in self.identifiers or fixed < 0x181)):
                        continue
                    wanted_id = fixed
                self.used_rpdos.add((n, rpdo.number))
                found.append((n, rpdo, sinks))
                break
        return found

    def sinks(self, n, rpdo, items, kind):
        """[(k, index)] where the RPDO can have these items, else None."""
        r, sheet = self.r, self.nodes[n]
        if not items or (not rpdo.free(2) and (rpdo.default[2] <= 240) != (kind <= 240)):
            return None
        if rpdo.mapping is not None:
            if [w for _, w in rpdo.mapping] != [w for _, w in items]:
                return None
            if r.random() < 0.9 and not all(alike(i, j) for (i, _), (j, _) in zip(items, rpdo.mapping)
                                            if j >= 0x1000):
                return None
            return [(k, i) for k, (i, _) in enumerate(rpdo.mapping) if i >= 0x1000] or None
        if len(items) > rpdo.places:
            return None
        sinks = []
        for k, (source, width) in enumerate(items):
            index = sheet.entry(width, False, source)
            if index is None or r.random() < (0.2 if DUMMY.get(width) in sheet.dummies else 0.03):
                if DUMMY.get(width) not in sheet.dummies and r.random() < 0.6:
                    return None
                continue
            sinks.append((k, index))
        return sinks or None

    def identifier(self, consumers, closed_id):
        r = self.r
        fixed = [p.fixed(n) for n, p, _ in consumers if not p.open()]
        if closed_id is not None:
            cob = r.choice([0, 0, closed_id, closed_id, 0x222 if r.random() < 0.15 else 0])
            self.identifiers.add(closed_id)
            return cob
        if fixed:
            self.identifiers.add(fixed[0])
            return fixed[0]
        closed = [p.fixed(n) for n, sheet in self.nodes.items() for p in sheet.pdos[0x1400]
                  if not p.open() and (p.fixed(n) or 0) > 0x180]
        closed = [i for i in closed if i not in self.identifiers]
        if closed and r.random() < 0.2:               # W24, unless the RPDO is used
            self.identifiers.add(closed[0])
            return closed[0]
        if r.random() < 0.07:
            return r.choice([0x185, 0x186, 0x191, 0x205, 0x80, 0x600, 0x682, 0x580])
        return 0

    def receive(self, name, node, rpdo):
        r = self.r
        if r.random() > 0.5:
            return
        number = rpdo.number if r.random() < 0.75 else 0
        if r.random() < 0.18:                         # one that another message has, or would take
            number = r.choice(self.nodes[node].pdos[0x1400]).number
        if rpdo.free(5):
            ms = r.choice([0, 20, 20, 65535, 1])
        else:
            ms = r.choice([0, rpdo.default[5]]) if 5 in rpdo.access else 0
            ms = 20 if r.random() < 0.2 else ms
        if r.random() < 0.08:
            number, ms = r.choice([0, 1, 2, 512, number]), r.choice([0, 7, 7])
        self.say(b"receive %s %d %d %d", name, node, number, ms)
        self.receives[name, node] = (number, ms)

    def contest(self):
        """A receive names the RPDO that another message has, or would get."""
        r = self.r
        places = {}
        for name, consumers in self.consumers_of.items():
            for n, number in consumers:
                places.setdefault(n, []).append((name, number))
        places = {n: those for n, those in places.items() if len(those) > 1}
        if not places:
            return
        n = r.choice(list(places))
        (one, _), (two, number) = r.sample(places[n], 2)
        names = r.choice([[one], [one], [one, two]])
        for name in names:
            self.say(b"receive %s %d %d %d", name, n, number, r.choice([0, 0, 20]))
            self.receives[name, n] = (number, 0)
        if len(names) == 1 and r.random() < 0.5:
            self.say(b"unreceive %s %d", two, n)

    def spoil(self, name, node):
        r = self.r
        other = r.choice(list(self.nodes))
        index = r.choice(self.types)
        self.say(*r.choice([
            (b"sink %s %d %d %04X 0", name, r.randint(1, 4), other, index),
            (b"source %s %d %04X 0", name, r.randint(1, 4), index),
            (b"source %s 7 %04X 0", name, r.choice([0x2003, 0x200E, 0x2005, 0x2001])),
            (b"source %s 1 1017 0", name),
            (b"sink %s 1 %d 1017 0", name, other),
            (b"unsource %s 1", name),
            (b"unsink %s 1 %d", name, other),
            (b"message %s %d %d %d %d %d %X", name, node, r.choice([1, 2, 3]),
             r.choice([252, 253, 241, 255, 1]), r.choice([0, 7]), r.choice([0, 3]),
             r.choice([0, 0x80, 0x185, 0x205, 0x191])),
            (b"receive %s %d %d %d", name, other, r.choice([0, 1, 2, 5]), r.choice([0, 20])),
            (b"receive %s %d 1 30", name, r.choice([0, 99, 128, 5])),
            (b"receive %s %d %d 1", name, other, r.choice([513, 65536, 512])),
            (b"receive nobody %d 1 0", other),
            (b"receive %s %d 1 65536", name, other),
            (b"unreceive %s %d", name, other),
            (b"start %s %d", name, r.choice([0, 1, 3]))]))

    # --------------------------------------------------------------- events

    def event(self, k):
        r = self.r
        time = r.choice([r.randrange(30000), r.randrange(0, 30000, 1000), r.randrange(8000, 25000)])
        n = r.choice(list(self.nodes) + ([self.manager] if self.manager in self.nodes else []))
        mapped = [i for p in self.nodes[n].pdos[0x1800] for i, _ in p.mapping or []]
        index = r.choice(mapped) if mapped and r.random() < 0.5 else r.choice(self.types)
        body = r.choice([b"set %d %04X 0 %s" % (n, index, text_of(r, index))] * 5 + [
            b"set %d 1017 0 %d" % (n, r.randrange(4)),
            b"set %d 1000 0 %d" % (n, r.randrange(4)),
            b"power %d %s" % (n, r.choice([b"on", b"off"])),
            b"nmt %d %d" % (r.choice([1, 1, 2, 128, 129, 130]), r.choice([n, n, 0])),
            b"nmt %d %d" % (r.choice([1, 128, 129, 130, 129]),
                            self.manager if self.manager in self.nodes else 0)])
        if self.manager in self.nodes and r.random() < 0.1:   # behind the start
            time = r.randrange(9000, 16000)
            body = b"nmt %d %d" % (r.choice([129, 130]), r.choice([self.manager, self.manager, 0]))
        self.say(b"event %d %d %s", k, time, body)

    # ---------------------------------------------------- versions and edits

    def switch(self):
        """Another version and back, with refusals on the way."""
        r = self.r
        for _ in range(r.choice([1, 1, 2])):
            target = r.choice([1, 2, 2])
            self.say(b"version %d", target)
            if r.random() < 0.6:
                for name, node in list(self.receives):
                    self.say(b"unreceive %s %d", name, node)
                if r.random() < 0.9:
                    self.say(b"time-period 0 0")
                if r.random() < 0.5:
                    self.say(b"version %d", target)
                if self.manager in self.nodes:
                    self.say(b"manager %d %d 0 500", 99, self.sync)
                self.say(b"version %d", target)
                if r.random() < 0.4:
                    for n in self.nodes:
                        self.say(b"need %d optional", n)
                    self.say(b"version 1")
                self.say(b"project")
                self.queries(r.random() < 0.5)
                self.say(b"receive %s %d 1 5", r.choice(list(self.messages) or [b"m"]),
                         r.choice(list(self.nodes)))
                if r.random() < 0.5:
                    self.say(b"manager %d %d 0 500", self.manager, self.sync)
                self.say(b"version 3")
                for (name, node), numbers in self.receives.items():
                    self.say(b"receive %s %d %d %d", name, node, *numbers)
            self.say(b"version 3")
            self.set_manager(self.manager)

    def edit(self):
        r, nodes = self.r, list(self.nodes)
        way = r.randrange(7)
        if way == 0:
            self.set_manager(r.choice(nodes + [98, self.manager]))
        elif way == 1:
            self.say(b"drop-node %d", r.choice(nodes))
            for n, sheet in self.nodes.items():
                self.say(b"node %d n%d %s", n, n, sheet.name)
        elif way == 2 and self.messages:
            name = r.choice(list(self.messages))
            self.say(b"drop-message %s", name)
            for n in nodes:
                self.say(b"unreceive %s %d", name, n)
            self.messages.pop(name)
            self.receives = {k: v for k, v in self.receives.items() if k[0] != name}
        elif way == 3:
            self.say(b"bitrate %d", r.choice([1000, 500, 125]))
        elif way == 4:
            sheet = r.choice(self.sheets)
            lines = list(sheet.lines)
            place = r.randrange(len(lines))
            lines[place] = lines[place].replace(b"const", b"rw") if b"const" in lines[place] else (
                r.choice([b"AccessType=const", b"DefaultValue=0x80000000", b"PDOMapping=0", lines[place]])
                if b"=" in lines[place] else lines[place])
            self.say(b"eds %s %d", sheet.name, len(lines))
            self.out += lines
        elif way == 5:
            for name, node in list(self.receives)[:1]:
                self.say(b"receive %s %d %d %d", name, node, r.choice([0, 1, 2]), r.choice([0, 9]))
        else:
            self.params_of(r.choice(nodes))

    def script(self):
        """The whole script: what it makes, edits, and asks."""
        r = self.r
        self.begin()
        for n in self.nodes:
            if r.random() < 0.8:
                self.params_of(n)
        if r.random() < 0.1:
            self.queries()
        for name in r.sample([b"m1", b"m2", b"m3", b"m4", b"m5", b"m6"], r.choice([2, 3, 4, 5])):
            self.message(name)
        if r.random() < 0.5:
            self.contest()
        for k in range(1, r.choice([1, 3, 5, 8])):
            self.event(k)
        if r.random() < 0.15:
            self.queries()
        if r.random() < 0.3:
            self.switch()
        for _ in range(r.choice([0, 0, 1, 2])):
            self.edit()
            if r.random() < 0.4:
                self.queries()
        self.queries(True)
        if r.random() < 0.15:
            self.say(b"version %d", r.choice([1, 2]))
        return b"\n".join(self.out) + b"\n"


def script(r):
    return Network(r, True, True).script()


def types(r):
    return Network(r, True, False).script()


def vendors(r):
    return Network(r, False, False).script()
