"""What the objects of the device that the manager runs in have to have by a project: its SYNC, TIME and heartbeat (CiA 301), the
nodes that it boots and who they are (CiA 302-2), and whose heartbeats it watches.

1F82h and 1F83h are no settings, but requests: nothing is said of them.
"""
from typing import Dict, List, NamedTuple, Set, Tuple

from . import values
from .data_types import DOMAIN
from .device import Device, Key
from .project import Project
from .wiring import Node

UNSIGNED8, UNSIGNED16, UNSIGNED32 = 0x05, 0x06, 0x07
SYNC, SYNC_PERIOD, TIME, HEARTBEAT, COUNTER = (0x1005, 0), (0x1006, 0), (0x1012, 0), (0x1017, 0), (0x1019, 0)
STARTUP, ASSIGNMENTS, BOOT_TIME = (0x1F80, 0), 0x1F81, (0x1F89, 0)
CONSUMERS, CONCISE_DCFS = 0x1016, 0x1F22
IDENTITIES: Dict[int, Key] = {0x1F84: (0x1000, 0), 0x1F85: (0x1018, 1), 0x1F86: (0x1018, 2), 0x1F87: (0x1018, 3), 0x1F88: (0x1018, 4)}
OF_MANAGERS = frozenset({CONCISE_DCFS, STARTUP[0], ASSIGNMENTS, *IDENTITIES, BOOT_TIME[0]})

KINDS: Dict[Key, int] = {HEARTBEAT: UNSIGNED16, COUNTER: UNSIGNED8}      # the others are UNSIGNED32
PRODUCER, SYNC_COB, TIME_COB = 1 << 30, 0x080, 0x100
IS_MASTER = 1                               # of 1F80h: the device is the NMT master, and starts the nodes one by one
IN_LIST, BOOTS, MANDATORY = 1, 4, 8         # of 1F81h: heartbeat and guard times are 0
LONGEST_TIME = 0xFFFF                       # ms, of 1016h


def kind_of(key: Key) -> int:
    """The data type that an entry has by the standards."""
    return DOMAIN if key[0] == CONCISE_DCFS else KINDS.get(key, UNSIGNED32)


def wanted(project: Project, nodes: Dict[int, Node]) -> Dict[Key, int]:
    """The number that each entry has to have, but for 1016h: by the `manager` of a project, and the nodes that it boots."""
    found = of_manager(project)
    found.update({STARTUP: IS_MASTER, BOOT_TIME: 0})
    for node in project.booted:
        found[ASSIGNMENTS, node] = IN_LIST | BOOTS | (MANDATORY if node in project.mandatory else 0)
        for index, number in identity_of(nodes[node].device, node).items():
            found[index, node] = number
    return dict(sorted(found.items()))


def of_manager(project: Project) -> Dict[Key, int]:
    """What the manager sends by itself: SYNC, TIME and its heartbeat."""
    _, sync, heartbeat, _ = project.manager
    found = {HEARTBEAT: heartbeat}
    if sync:
        found.update({SYNC: PRODUCER | SYNC_COB, SYNC_PERIOD: sync})
    if sync and project.sync_counter:
        found[COUNTER] = project.sync_counter
    if project.time:
        found[TIME] = PRODUCER | TIME_COB
    return found


def identity_of(device: Device, node: int) -> Dict[int, int]:
    """The numbers that a node is known by, by the objects that have them; those that its data sheet gives as 0 aren't compared."""
    entries = {index: device.entries.get(key) for index, key in IDENTITIES.items()}
    numbers = {index: int.from_bytes(values.default_of(entry, node), "little")
               for index, entry in entries.items() if entry and entry.is_of_identity()}
    return {index: number for index, number in numbers.items() if number}


class Consumers(NamedTuple):
    """The heartbeat consumers of the manager that a project asks for.

    values   the numbers of 1016h by sub-index
    no_room  the nodes for which no sub-index is left
    """

    values: Dict[Key, int]
    no_room: List[int]


def consumers(project: Project, own: Node, nodes: Dict[int, Node]) -> Consumers:
    """A consumer for each node that is booted, sends a heartbeat, and isn't watched: of one and a half of its periods."""
    watched: Set[int] = {node for node, _ in own.watched}
    beating = [(node, nodes[node].heartbeat) for node in project.booted if nodes[node].heartbeat and node not in watched]
    free = [key for key in ((CONSUMERS, sub) for sub in own.device.subs.get(CONSUMERS, ()) if sub) if is_free(own, key)]
    made = {key: consumer(node, period) for key, (node, period) in zip(free, beating)}
    return Consumers(made, [node for node, _ in beating[len(free):]])


def consumer(node: int, period: int) -> int:
    """The number of 1016h by which a heartbeat is missed after one and a half of its periods, rounded up."""
    return node << 16 | min((3 * period + 1) // 2, LONGEST_TIME)


def is_free(own: Node, key: Key) -> bool:
    """Whether a consumer is off, can be written, and isn't set by the script."""
    entry = own.device.entries[key]
    number = own.number_at(*key, UNSIGNED32)
    is_off = number is not None and not (number & 0xFFFF and number >> 16 & 0xFF)
    return is_off and entry.is_writable() and key not in own.written


def assigned(own: Node) -> Dict[int, int]:
    """What 1F81h says of each node that is in the list of the manager."""
    found: List[Tuple[int, int]] = [(sub, own.number_at(ASSIGNMENTS, sub, UNSIGNED32) or 0) for sub in own.device.subs.get(ASSIGNMENTS, ())]
    return {node: number for node, number in found if 1 <= node <= 127 and number & IN_LIST}
