"""RPDOs of one node that take one identifier: of a script, and of a file where a script of it has that otherwise."""
from .data_types import BITS
from .findings import Finding
from .wiring import COMMUNICATION, RPDO, Node

TAKEN_TWICE = "taken-twice"


def of(evidence):
    """The findings of a session: each identifier that RPDOs of one node take."""
    return [finding(evidence, node, identifier, several) for node in sorted(evidence.project.nodes)
            for identifier, several in taken(evidence.node(node).pdos(RPDO)).items() if len(several) > 1]


def finding(evidence, node, identifier, several):
    """The finding of one, at the line of the message that has the identifier, else of the node."""
    clean = [(name, each) for name, each in evidence.plan.messages.items() if not each.faults]
    name = next((name for name, each in clean if each.identifier == identifier), None)
    place = evidence.origins.place("message", name) if name else evidence.origins.place("node", node)
    return Finding(place, f"{TAKEN_TWICE} {node} {identifier:03X}", f"node {node}", evidence.node_name(node),
                   text_of("it", identifier, several))


def warnings(file, made):
    """For each such identifier the line of the last of these RPDOs, and what comes of it.

    made  the number of each entry of PDO objects that the messages write
    """
    before, by_script = taken(file.on_pdos(RPDO)), taken(by_script_of(file, made).pdos(RPDO))
    return [(line_of(file, several[-1]), text_of(file.name, identifier, several))
            for identifier, several in by_script.items()
            if len(several) > 1 and shown(several) != shown(before.get(identifier, []))]


def by_script_of(file, made):
    """The node as the script has it: its defaults, and over them what messages write."""
    entries = file.device.entries
    data = {key: number.to_bytes((BITS[entries[key].kind] + 7) // 8, "little")
            for key, number in made.items() if key in entries}
    return Node(file.number, file.device, data)


def taken(pdos):
    """The RPDOs that take each identifier."""
    found = {}
    for pdo in pdos:
        found.setdefault(pdo.identifier, []).append(pdo)
    return found


def shown(pdos):
    """Which RPDOs these are, and when they act."""
    return [(pdo.number, when(pdo)) for pdo in pdos]


def when(pdo):
    """When an RPDO hands on what it took."""
    return "never" if pdo.kind is None or 240 < pdo.kind < 254 else "at SYNC" if pdo.kind <= 240 else "at once"


def text_of(name, identifier, pdos):
    """That a node takes an identifier several times, in words."""
    times = {2: "twice"}.get(len(pdos), f"{len(pdos)} times")
    return f"{name} takes {identifier:03X}h {times}: " + ", ".join(f"by RPDO {pdo.number} {when(pdo)}" for pdo in pdos)


def line_of(file, pdo):
    """The line that says which identifier an RPDO takes."""
    entry = file.device.entries[COMMUNICATION[RPDO] + pdo.number, 1]
    return entry.line if entry.value else entry.line_of("defaultvalue")
