"""What receivers call a value whose sender's name says nothing: a network variable, or an entry as Out_i32_1."""
import re

NETWORK_VARIABLES = range(0xA000, 0xB000)
SAY_NOTHING = frozenset("""array bit bits bool boolean byte bytes data dint dword element entry i in index input inputs
int integer item lint network no number nv object out output outputs pdo process real rx sdint sint sub subindex to tx u
udint ui uint ulint unsigned usint value values var variable variables word words""".split())
WORD = re.compile(r"[^\W\d_]+")
MOST_NODES = 2


def says_nothing(index, name):
    """Whether the name of an entry says nothing of what its value is."""
    return index in NETWORK_VARIABLES or SAY_NOTHING.issuperset(WORD.findall(name.lower()))


def beside(taken):
    """What is shown beside a sender's name: the names of receivers, of node and name each, in words; "" for none."""
    nodes = {}
    for node, name in taken:
        if name:
            nodes.setdefault(name, []).append(node)
    return ", ".join(f"{name} of {nodes_text(each)}" for name, each in nodes.items())


def nodes_text(names):
    """Some nodes in words."""
    more = len(names) - MOST_NODES
    return ", ".join(names[:MOST_NODES]) + (f" and {more} more" if more > 0 else "")


def of_project(project, devices):
    """What is shown beside the entries of each TPDO of a message, by node and number and then by entry."""
    found = {}
    for message in project.messages.values():
        for position, key in message.sources.items():
            words = beside_source(project, devices, message, position, key)
            if words:
                found.setdefault((message.node, message.tpdo), {})[key] = words
    return found


def beside_source(project, devices, message, position, key):
    """What is shown beside a source of a message."""
    entry = entry_of(project, devices, message.node, key)
    if not entry or not says_nothing(key[0], entry.name):
        return ""
    sinks = [(node, entry_of(project, devices, node, taken))
             for (at, node), taken in sorted(message.sinks.items()) if at == position]
    return beside((project.nodes[node][0], taken.name)
                  for node, taken in sinks if taken and not says_nothing(0, taken.name))


def entry_of(project, devices, node, key):
    """An entry of a node, None where there is none."""
    device = devices.get(project.nodes[node][1]) if node in project.nodes else None
    return device.entries.get(key) if device else None


def of_part(network, tpdo, part):
    """What is shown beside a part of a TPDO, by the RPDOs that take it."""
    if not says_nothing(part.key[0], part.entry.name):
        return ""
    return beside((network.name(pdo.node), other.entry.name) for pdo, other in network.targets(tpdo, part)
                  if not says_nothing(0, other.entry.name))
