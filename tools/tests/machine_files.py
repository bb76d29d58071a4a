"""The DCFs of a machine with PDOs as vendors make them: an encoder and a pressure transmitter of fixed mapping, a gateway whose
RPDO can't be moved, drives and I/O with PDOs that are on by default and that nobody uses, receivers with time-outs."""
import os
import re

from helper import kept_at, put

FOLDER = "machine"
DRIVES, MINIS, INPUTS = (1, 2, 3, 4), (5, 6), (20, 21, 22)
OFF, NO_RTR = 0x80000000, 0x40000000


def entry(index, sub=None):
    return f"{index:04X}" if sub is None else f"{index:04X}sub{sub:X}"


def pdo(index, cob=None, kind=None, event=None, inhibit=None, items=()):
    """What a file sets of a PDO: the values by the names of their sections."""
    values = {entry(index, 1): cob, entry(index, 2): kind, entry(index, 3): inhibit, entry(index, 5): event}
    values.update({entry(index + 0x200, 0): len(items) or None})
    values.update({entry(index + 0x200, sub): item for sub, item in enumerate(items, 1)})
    return {section: value for section, value in values.items() if value is not None}


def controller():
    values = {"1005": 0x40000080, "1006": 4000, "1017": 100}
    values.update(pdo(0x1400, 0x29E, 1, 12, items=[0xA2400120]))
    for place, node in enumerate(DRIVES + MINIS, 1):
        values.update(pdo(0x1400 + place, 0x280 + node, 1, 20, items=[0xA1000010 | node << 8, 0xA2000020 | node << 8]))
        values.update(pdo(0x1800 + place - 1, NO_RTR | 0x300 + node, 1, items=[0xA5800010 | node << 8, 0xA6800020 | node << 8]))
    for place, node in enumerate(INPUTS):
        values.update(pdo(0x1407 + place, 0x180 + node, 255, items=[0xA0000008 | 2 * place + 1 << 8, 0xA0000008 | 2 * place + 2 << 8]))
        values.update(pdo(0x1806 + place, NO_RTR | 0x200 + node, 255, 100, 50,
                          items=[0xA4800008 | 2 * place + 1 << 8, 0xA4800008 | 2 * place + 2 << 8]))
    values.update(pdo(0x140B, 0x19F, 255, 300, items=[0xA1400110]))
    values.update(pdo(0x1809, NO_RTR | 0x3A0, 255, inhibit=100, items=[0xA5800D10, 0xA5800E10]))
    return values


def drive(node):
    return {"6080": 4000, "1017": 100, **pdo(0x1400, OFF | 0x200 + node), **pdo(0x1401, 0x300 + node, 1, 20),
            **pdo(0x1402, OFF | 0x400 + node), **pdo(0x1800, OFF | NO_RTR | 0x180 + node), **pdo(0x1801, NO_RTR | 0x280 + node, 1)}


def mini(node):
    return {"1017": 100, **pdo(0x1401, None, 1, 20), **pdo(0x1800, NO_RTR | 0x280 + node, 1), **pdo(0x1801, OFF | 0x280 + node)}


def inputs(node):
    return {"1017": 200, **pdo(0x1400, None, None, 500), **pdo(0x1401, OFF | 0x300 + node), **pdo(0x1800, NO_RTR | 0x180 + node, inhibit=50),
            **pdo(0x1801, OFF | 0x280 + node)}


def nodes():
    """The nodes: the data sheet, the name and the values of each, by its number."""
    found = {10: ("plc", "controller", controller()), 30: ("abs_36", "encoder", {"1017": 500, **pdo(0x1800, OFF | 0x19E)}),
             31: ("pt_2", "pressure", {"1017": 500, **pdo(0x1800, event=200)}), 40: ("gate", "gateway", {"1017": 500})}
    found.update({node: ("dx2", f"axis{node}", drive(node)) for node in DRIVES})
    found.update({node: ("ax_mini", f"axis{node}", mini(node)) for node in MINIS})
    found.update({node: ("io16", f"io{node}", inputs(node)) for node in INPUTS})
    return found


def dcf(sheet, node, name, values):
    """The DCF of a node, over the text of a data sheet: each value behind the default of its section."""
    end = "\r\n" if "\r\n" in sheet else "\n"
    missing = dict((section.lower(), value) for section, value in values.items())
    lines, section = [], ""
    for line in sheet.split(end):
        found = re.fullmatch(r"\[(.*)\]", line)
        section = found.group(1).lower() if found else section
        lines.append(line)
        if line.startswith("DefaultValue=") and section in missing:
            lines.append(f"ParameterValue=0x{missing.pop(section):X}")
    return end.join(lines + compact_values(sheet, missing) + ["[DeviceComissioning]", f"NodeID={node}", f"NodeName={name}", "Baudrate=500", ""])


def compact_values(sheet, missing):
    """The sections of values of sub-indexes that have no sections of their own."""
    objects = {}
    for section, value in missing.items():
        index, sub = section.split("sub")
        objects.setdefault(index.upper(), []).append(f"{int(sub, 16)}=0x{value:X}")
    assert all(f"[{index}]" in sheet for index in objects), missing
    return [line for index, values in objects.items() for line in (f"[{index}Value]", f"NrOfEntries={len(values)}", *values)]


def write_all():
    """Writes the DCFs into the folder of this test; their names, by the nodes' numbers."""
    names = {}
    for node, (eds, name, values) in sorted(nodes().items()):
        with open(os.path.join(kept_at(FOLDER), f"{eds}.eds"), encoding="latin-1", newline="") as opened:
            names[node] = put(f"{node}_{name}.dcf", dcf(opened.read(), node, name, values).encode("latin-1"))
    return names
