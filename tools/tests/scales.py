"""A network of version 3 with the data types that version 3 has besides: a scale that sends them, and a panel that takes some.

Its messages: `weight` has the REAL32 2000h in its bits 0 to 31 and the INTEGER24 2002h behind it, `volume` the REAL64 2001h, `count` the
UNSIGNED40 2003h, which nobody takes.
"""
from helper import put, recorded, run

HORIZON = 300_000


def entry(index, name, kind, access, *more):
    """The section of an entry that PDOs can carry."""
    return [f"[{index:04X}]", f"ParameterName={name}", f"DataType={kind:#06x}", f"AccessType={access}", "PDOMapping=1", *more]


def pdo(first, number, places):
    """The objects of a PDO that can be set, with so many places; first is that of all communication objects."""
    index = first + number - 1
    rows = [f"[{index:X}sub1]", "DataType=7", "DefaultValue=0x80000000", f"[{index:X}sub2]", "DataType=5", "DefaultValue=255",
            f"[{index + 0x200:X}sub0]", "DataType=5"]
    return rows + [row for place in range(1, places + 1) for row in (f"[{index + 0x200:X}sub{place}]", "DataType=7")]


SCALE = ["[1017]", "DataType=6", *pdo(0x1800, 1, 2), *pdo(0x1800, 2, 1), *pdo(0x1800, 3, 1), *entry(0x2000, "Weight [kg]", 0x08, "ro", "LowLimit=-10", "HighLimit=600.5"),
         *entry(0x2001, "Volume", 0x11, "ro"), *entry(0x2002, "Turns", 0x10, "ro"), *entry(0x2003, "Count", 0x18, "ro"),
         *entry(0x2004, "Gain", 0x08, "rw", "DefaultValue=1", "LowLimit=0.5", "HighLimit=2"), *entry(0x2005, "Offset", 0x11, "rw", "LowLimit=-1e-1"),
         *entry(0x2006, "Zero", 0x13, "rw", "HighLimit=100")]
PANEL = ["[1017]", "DataType=6", *pdo(0x1400, 1, 2), *pdo(0x1400, 2, 2), *entry(0x2100, "Shown weight", 0x08, "rww"), *entry(0x2101, "Shown volume", 0x11, "rww"),
         *entry(0x2102, "Shown turns", 0x10, "rww"), *entry(0x2103, "Bits", 0x07, "rww")]
SCRIPT = ["bitrate 500", f"horizon {HORIZON}", "manager 127 0 0 500", f"eds scale {len(SCALE)}", *SCALE, f"eds panel {len(PANEL)}", *PANEL,
          "node 5 scale scale", "node 6 panel panel", "param 5 2004 0 2.5", "param 5 2005 0 -0.1", "param 5 2006 0 -5",
          "message weight 5 1 255 0 0 185", "source weight 1 2000 0", "source weight 2 2002 0", "sink weight 1 6 2100 0", "sink weight 2 6 2102 0",
          "message volume 5 2 255 0 0 285", "source volume 1 2001 0", "sink volume 1 6 2101 0", "message count 5 3 255 0 0 385", "source count 1 2003 0",
          "event 1 200000 set 5 2000 0 2.5", "event 2 210000 set 5 2001 0 0.1", "event 3 220000 set 5 2002 0 -3", "event 4 230000 set 5 2003 0 0x123456789A",
          "event 5 240000 set 5 2000 0 -1e-45"]


def scales(*more, version=3, name="scales.txt", changes=()):
    """Writes the script, with these lines behind it and these texts replaced by others."""
    text = "".join(f"{line}\n" for line in [f"version {version}", *SCRIPT, *more])
    for old, new in changes:
        assert old in text, old
        text = text.replace(old, new)
    return put(name, text.encode())


def cobtool(command, *words):
    """The status, the output and the faults of a command, by recorded replies."""
    status, output, faults = run(command, "--cobench", recorded(), *words)
    return status, output.decode(), faults
