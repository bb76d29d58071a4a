"""What is other in the messages of two networks: identifiers, PDOs, and what they carry to whom."""
from . import matrix
from .device import object_name


class Seen:
    """A message as one side has it: its attributes in words, by their names."""

    def __init__(self, side, tpdo):
        network = side.network
        self.attributes = {
            "identifier": f"{tpdo.identifier:03X}h", "sender": f"{network.name(tpdo.node)} TPDO {tpdo.number}",
            "type": f"{tpdo.kind}, {matrix.when(tpdo)}", "inhibit time [ms]": matrix.milliseconds(tpdo.inhibit),
            "event time [ms]": tpdo.event or "-", "SYNC start value": tpdo.start or "-"}
        self.signals = {part.start: f"{object_name(part.key)} {part.entry.name} of {part.bits} bits"
                        for part in tpdo.parts}
        self.receivers = {network.name(pdo.node): f"RPDO {pdo.number}{matrix.within(pdo.event)}" for pdo in network.receivers(tpdo)}
        self.targets = {(network.name(pdo.node), other.start): f"{object_name(other.key)} {other.entry.name}"
                        for part in tpdo.parts for pdo, other in network.targets(tpdo, part)}

    def text(self):
        """All of it in a line."""
        takers = ", ".join(f"{name} ({rpdo})" for name, rpdo in self.receivers.items()) or "nobody"
        return f"{self.attributes['identifier']}, {self.attributes['sender']}, to {takers}"


def seen_of(side):
    """The messages that are in a PDO, and the TPDOs that devices have by default, by how they are called."""
    network = side.network
    names = [network.message_of(tpdo) or f"TPDO {tpdo.number} of {network.name(tpdo.node)} (by default)"
             for tpdo in network.tpdos]
    return {name: Seen(side, tpdo) for name, tpdo in zip(names, network.tpdos)}


def messages(old, new):
    """What is other in the messages."""
    before, after, lines = seen_of(old), seen_of(new), []
    for name in sorted(set(before) | set(after) | set(old.network.faults) | set(new.network.faults)):
        if name in before and name in after:
            lines += message(name, before[name], after[name])
        elif name in before or name in after:
            lines += one_sided(name, before.get(name), after.get(name), old, new)
    return lines


def one_sided(name, before, after, old, new):
    """A message that is in a PDO on one side alone."""
    sign, seen, other = ("+", after, old) if before is None else ("-", before, new)
    faults = other.network.faults.get(name)
    why = f"; {'before' if before is None else 'now'} in no PDO ({', '.join(faults)})" if faults else ""
    return [f"{sign} {name}: {seen.text()}{why}"]


def message(name, old, new):
    """What is other in a message that is in a PDO on both sides."""
    lines = [f"{what}: {old.attributes[what]} -> {new.attributes[what]}" for what in old.attributes
             if old.attributes[what] != new.attributes[what]]
    lines += dictionary(old.signals, new.signals, lambda start: f"at bit {start}")
    lines += dictionary(old.receivers, new.receivers, lambda node: f"taken by {node}")
    lines += dictionary(old.targets, new.targets, lambda key: f"{key[0]} takes from bit {key[1]} on")
    return [name] + [f"  {line}" for line in lines] if lines else []


def dictionary(old, new, words):
    """What is other in two dictionaries, each key said by words."""
    lines = []
    for key in sorted(set(old) | set(new)):
        if key not in old or key not in new:
            lines.append(f"{'+' if key in new else '-'} {words(key)}: {new.get(key) or old[key]}")
        elif old[key] != new[key]:
            lines.append(f"{words(key)}: {old[key]} -> {new[key]}")
    return lines
