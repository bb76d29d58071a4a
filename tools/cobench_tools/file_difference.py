"""What is other in the files of the nodes of two networks."""
from . import values
from .device import object_name
from .matrix import need_of, value_text
from .wiring import key_and_bits

LAST_DUMMY = 7


def nodes(old, new):
    """What is other in the nodes and their files."""
    lines = []
    for number in sorted(set(old.project.nodes) | set(new.project.nodes)):
        if number not in old.project.nodes or number not in new.project.nodes:
            side, sign = (new, "+") if number in new.project.nodes else (old, "-")
            name, eds = side.project.nodes[number]
            lines.append(f"{sign} node {number} {name}, of data sheet {eds}")
        else:
            lines += node(old, new, number)
    return lines


def node(old, new, number):
    """What is other in a node that both have."""
    name = new.project.nodes[number][0]
    lines = of_itself(old, new, number) + written(*(side.network.nodes[number] for side in (old, new)))
    files = [f"{number}_{name}{end}" for query, end in (("dcf", ".dcf"), ("cdcf", ".bin"))
             if old.answered.lines(query, number) != new.answered.lines(query, number)]
    verb = "changes" if len(files) == 1 else "change"
    title = f"node {number} {name}" + (f": {' and '.join(files)} {verb}" if files else "")
    return [title] + [f"  {line}" for line in lines] if lines or files else []


def of_itself(old, new, number):
    """What is other in a node's name, data sheet and need."""
    lines = []
    for what, before, after in zip(("name", "data sheet"), old.project.nodes[number], new.project.nodes[number]):
        lines += [f"{what}: {before} -> {after}"] if before != after else []
    names = [side.project.nodes[number][1] for side in (old, new)]
    if names[0] == names[1] and old.project.texts[names[0]] != new.project.texts[names[0]]:
        lines.append(f"its data sheet {names[0]} is other")
    needs = [need_of(side.project, number) for side in (old, new)]
    return lines + ([f"need: {needs[0]} -> {needs[1]}"] if needs[0] != needs[1] else [])


def written(old, new):
    """What is other in the values that the concise DCFs write."""
    lines = []
    for key in sorted(set(old.written) | set(new.written)):
        if old.written.get(key) != new.written.get(key):
            name = (new.device.entries.get(key) or old.device.entries[key]).name
            lines.append(f"{object_name(key)} {name}".rstrip() + f": {value(old, key)} -> {value(new, key)}")
    return lines


def value(node, key):
    """The value that a node has of an entry: written, or its default."""
    entry_there = node.device.entries.get(key)
    if entry_there is None:
        return "none"
    if key in node.written:
        return pdo_text(key, node.written[key]) or value_text(entry_there.kind, node.written[key])
    if not entry_there.is_modelled:
        return "default"
    data = values.default_of(entry_there, node.number)
    return f"default {pdo_text(key, data) or value_text(entry_there.kind, data)}".rstrip()


def pdo_text(key, data):
    """A COB-ID or a mapping entry of a PDO in words, else None."""
    number = int.from_bytes(data, "little")
    is_mapping = 0x1600 <= key[0] <= 0x17FF or 0x1A00 <= key[0] <= 0x1BFF
    if is_mapping and key[1] and len(data) == 4:
        mapped, bits = key_and_bits(number)
        what = object_name(mapped) if mapped[0] > LAST_DUMMY else "dummy"
        return f"{what} of {bits} bits" if number else "nothing"
    if (0x1400 <= key[0] <= 0x15FF or 0x1800 <= key[0] <= 0x19FF) and key[1] == 1 and len(data) == 4:
        return f"{number & 0x7FF:03X}h" + (" (off)" if number >> 31 else "")
    return None
