"""What is other in the data sheets of two networks."""
from .data_types import type_name
from .device import Device, object_name

MOST_LINES = 20

# What a data sheet says of an entry.
SAID = {
    "name": lambda entry: entry.name, "data type": lambda entry: type_name(entry.kind),
    "access": lambda entry: entry.access, "default": lambda entry: entry.default, "low limit": lambda entry: entry.low,
    "high limit": lambda entry: entry.high, "PDO mapping": lambda entry: entry.mappable, "value": lambda entry: entry.value,
}


def sheets(old, new):
    """What is other in the data sheets."""
    one, two, lines = old.project.texts, new.project.texts, []
    for name in sorted(set(one) | set(two)):
        if name not in one or name not in two:
            lines.append(f"{'+' if name in two else '-'} {name}, of {len(one.get(name) or two.get(name) or [])} lines")
        elif one[name] != two[name]:
            sheets_of = Device(one[name], old.project.version), Device(two[name], new.project.version)
            found = sheet(*sheets_of) or ["other lines, which give no entry"]
            more = len(found) - MOST_LINES
            found = found[:MOST_LINES] + ([f"and {more} more"] if more > 0 else [])
            lines += [name] + [f"  {line}" for line in found]
    return lines


def sheet(old, new):
    """What is other in the entries of a data sheet."""
    lines = []
    for key in sorted(set(old.entries) | set(new.entries)):
        before, after = old.entries.get(key), new.entries.get(key)
        if before is None or after is None:
            lines.append(f"{'+' if before is None else '-'} entry {object_name(key)} {(before or after).name}".rstrip())
        else:
            lines += entry(key, before, after)
    return lines


def entry(key, old, new):
    """What a data sheet says otherwise of an entry that both have."""
    lines = []
    for what, said in SAID.items():
        before, after = said(old), said(new)
        if before != after:
            lines.append(f"{object_name(key)} {new.name}".rstrip() + f": {what} {shown(before)} -> {shown(after)}")
    return lines


def shown(value):
    """A word of a data sheet in a line."""
    return {True: "1", False: "0", "": "none"}.get(value, value)
