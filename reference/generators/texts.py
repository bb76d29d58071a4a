"""Odd texts of data sheets, with parameters and events of their entries; those of version 3 with its types too."""
from .version_3 import DECIMALS, NO_DECIMALS

NUMBERS = [b"0", b"1", b"2", b"5", b"7", b"08", b"010", b"0x10", b"0X1f", b"-1", b"-0", b"255", b"256",
           b"0xFF", b"0xFFFF", b"0x80", b"65535", b"65536", b"0xFFFFFFFF", b"4294967296",
           b"18446744073709551615", b"18446744073709551616", b"-9223372036854775808", b"0x", b"-",
           b"", b"$NODEID", b"$nodeid+0x180", b"0x80 + $NodeId", b"$NODEID+", b"$NODEID+-1",
           b"$NODEID+0xFF", b"1+1", b"abc", b"ABCD", b"abc1", b"text here", b"1 2", b"+1", b"00"]
KEYS = [b"DataType", b"datatype", b"ObjectType", b"AccessType", b"PDOMapping", b"DefaultValue",
        b"LowLimit", b"HighLimit", b"ParameterValue", b"parametervalue", b"CompactSubObj", b"SubNumber",
        b"ParameterName", b"CompactPDO", b"NrOfEntries", b"1", b"01", b"2", b"0", b"3", b"300"]
SECTIONS = [b"2000", b"2000sub0", b"2000sub1", b"2000sub01", b"2000SUB1", b"2000sub2", b"2000Value",
            b"2000VALUE", b"2000Name", b"2001", b"2002", b"1a00", b"1A00sub0", b"1a00Value", b"1800sub1",
            b"1800sub2", b"1400sub1", b"1000", b"1018sub1", b"1017", b"1001", b"1016", b"1016sub1",
            b"1016Value", b"DummyUsage", b"DeviceComissioning", b"DeviceCommissioning", b"FileInfo",
            b"abcd", b"FACEsub1F", b"2000sub100", b"0006", b" 2003 ", b"2000sub"]
TYPES = [b"1", b"2", b"3", b"4", b"5", b"6", b"7", b"8", b"9", b"0xA", b"0xF", b"0x15", b"0x1B", b"0x0007", b"",
         b"x", b"99"]
OF_VERSION_3 = [b"0x08", b"8", b"0x11", b"17", b"0x10", b"0x12", b"0x13", b"0x14", b"0x16", b"0x18", b"0x19", b"0x1A"]
WIDE = [b"0x7FFFFF", b"0x800000", b"16777215", b"16777216", b"-8388608", b"-8388609", b"0xFFFFFFFFFF", b"-549755813889",
        b"281474976710655", b"0x1000000000000", b"-36028797018963968", b"72057594037927936", b"$NODEID+0xFFFFFF"]


class Choices:
    """What texts of a version are made of."""

    def __init__(self, version):
        is_three = version == 3
        self.types = OF_VERSION_3 + TYPES if is_three else TYPES
        self.numbers = NUMBERS + (DECIMALS + NO_DECIMALS + WIDE if is_three else [])
        self.given = [number for number in self.numbers if number]
        self.versions = [b"version 2", b"version 3", b"version 3"] if is_three else []


def odd_text(r, choices):
    """The lines of an EDS."""
    lines = []
    for _ in range(r.randrange(1, 14)):
        section = r.choice(SECTIONS)
        lines.append(r.choice([b"[%s]", b"[%s]", b"[%s]", b" [%s] x", b"[ %s ]"]) % section)
        keys = [b"DataType"] if r.random() < 0.8 else []
        if r.random() < 0.4:
            keys += [b"ObjectType", b"CompactSubObj"]
        keys += r.choices(KEYS, k=r.randrange(5))
        for key in keys:
            value = r.choice(choices.numbers)
            if key.lower() == b"datatype":
                value = r.choice(choices.types[:-3]) if r.random() < 0.9 else r.choice(choices.types)
            elif key == b"ObjectType":
                value = r.choice([b"7", b"8", b"9", b"0x8", b"9", b"2", b"", b"x", b"5"])
            elif key == b"CompactSubObj":
                value = r.choice([b"1", b"2", b"3", b"0", b"254", b"255", b"0x2", b""])
            elif key == b"AccessType":
                value = r.choice([b"ro", b"rw", b"WO", b"rwr", b"rww", b"const", b"Const", b"x", b""])
            elif key == b"PDOMapping":
                value = r.choice([b"0", b"1", b"0x1", b"", b"2", b"x"])
            if section in (b"DummyUsage",):
                key, value = b"Dummy000%d" % r.randrange(9), r.choice([b"0", b"1", b"x", b""])
            if b"omm" in section or b"oCom" in section or b"eCom" in section:
                key = r.choice([b"NodeID", b"nodename", b"NetNumber", b"LSS_SerialNumber", b"netnumber"])
            lines.append(r.choice([b"%s=%s", b"%s=%s", b"%s=%s", b" %s = %s\t", b"%s=%s\r"])
                         % (key, value))
        if r.random() < 0.2:
            lines.append(r.choice([b"", b";c", b"junk", b"=5", b"[]", b"[]=3", b"[x", b"[x=1",
                                   b"\xEF\xBB\xBFa=1", b"a\rb=\xE4", b"k=;v", b"a=b=c", b"\r[2001]"]))
    if r.random() < 0.1:
        lines[0] = b"\xEF\xBB\xBF" + lines[0]
    if r.random() < 0.03:
        lines.append(b"bad\x00byte")
    return lines


def script(r, version=2):
    """Two odd texts with nodes, parameters and events of them, and all queries; then one text changed, and again."""
    choices = Choices(version)
    out = choices.versions[-1:]
    for name in (b"a", b"b"):
        lines = odd_text(r, choices)
        out += [b"eds %s %d" % (name, len(lines))] + lines
    out += [b"node 5 p a", b"node 6 q b", b"node 7 r a"]
    for _ in range(r.randrange(12)):
        out.append(b"param %d %s %s %s" % (
            r.choice([5, 6, 7]), r.choice([b"2000", b"2000", b"2001", b"1016", b"1017", b"2002", b"abcd"]),
            r.choice([b"0", b"1", b"2", b"02", b"1F"]), r.choice(choices.given)))
    for k in range(1, r.randrange(1, 5)):
        out.append(b"event %d %d set %d %s %s %s" % (
            k, r.randrange(3000), r.choice([5, 6]), r.choice([b"2000", b"2001", b"1017", b"1016"]),
            r.choice([b"0", b"1"]), r.choice(choices.given)))
    for _ in range(2):
        out += [b"horizon 20000", b"diag", b"dcf 5", b"dcf 6", b"cdcf 5", b"cdcf 6", b"trace", b"project"]
        lines = odd_text(r, choices)
        out += [b"eds a %d" % len(lines)] + lines
        if choices.versions:
            out.append(r.choice(choices.versions))
    return b"\n".join(out) + b"\n"
