"""The DCF of the controller for the manager in it: beside its own values those by which it boots the network (CiA 302)."""
from typing import Dict, List, Optional, Set, Tuple

from . import manager_objects as objects
from . import values
from .data_types import type_name
from .dcf_text import DcfText, number_text
from .device import Key, object_name
from .project import Project
from .session import Session
from .wiring import Node, nodes_of

MOST_NAMED = 8


def list_of(names: List[str]) -> str:
    """Some names in words."""
    more = [f"{len(names) - MOST_NAMED} more"] if len(names) > MOST_NAMED else []
    return ", ".join(names[:MOST_NAMED] + more)


def nodes_text(nodes: List[int]) -> str:
    """Some nodes in words."""
    return f"node{'' if len(nodes) == 1 else 's'} {list_of([str(node) for node in nodes])}"


class MasterFile:
    """The DCF by which a device is the manager of a project.

    node   the number of the controller
    name   the name of the file
    data   its bytes, None where the data sheet has no object of a manager
    notes  what of it the data sheet doesn't take, in words

    `lines` are those of the DCF of the controller.
    """

    def __init__(self, project: Project, node: int, nodes: Dict[int, Node], lines: List[bytes]) -> None:
        name, eds = project.nodes[node]
        self.node, self.name, self.notes = node, f"{node}_{name}_master.dcf", []  # type: int, str, List[str]
        self.data: Optional[bytes] = None
        self._own, self._absent = nodes[node], set()  # type: Node, Set[Key]
        self._refused: Dict[Tuple[int, str], List[Key]] = {}
        if objects.OF_MANAGERS.isdisjoint(self._own.device.subs):
            self.notes.append(f"there is no {self.name}, as its data sheet has none of the objects of a manager (1F22h, 1F80h to 1F89h)")
            return
        text = DcfText(lines, project.texts[eds])
        self._set_numbers(text, project, nodes)
        self._name_files(text, project)
        text.commission("CANopenManager", "1")
        self.data = b"".join(line + b"\n" for line in text.lines())
        self._tell_refused()
        self._tell_absent()

    def _set_numbers(self, text: DcfText, project: Project, nodes: Dict[int, Node]) -> None:
        """What the manager does and whom it boots, and whose heartbeats it watches."""
        wanted = {key: number for key, number in objects.wanted(project, nodes).items() if self._takes_number(key, number)}
        consumers = objects.consumers(project, self._own, nodes)
        for key, number in {**wanted, **consumers.values}.items():
            text.set(key, number_text(objects.kind_of(key), number))
        if consumers.no_room and objects.CONSUMERS in self._own.device.subs:
            self.notes.append(f"1016h has no sub-index left for {nodes_text(consumers.no_room)}, whose heartbeat it doesn't watch")
        elif consumers.no_room:
            self._absent.add((objects.CONSUMERS, 0))

    def _name_files(self, text: DcfText, project: Project) -> None:
        """The concise DCF of each node that is booted."""
        for node in project.booted:
            name = f"{node}_{project.nodes[node][0]}.bin"
            if self._takes((objects.CONCISE_DCFS, node)):
                text.upload((objects.CONCISE_DCFS, node), name)

    # What the data sheet takes, and what it doesn't.

    def _takes_number(self, key: Key, number: int) -> bool:
        """Whether an entry gets a number: not where the script sets it, nor where it can't be another."""
        there = self._own.number_at(*key, objects.kind_of(key))
        if there is not None and key in self._own.written:
            self._compare(key, there, number)
            return False
        if there == number and not self._own.device.entries[key].is_writable():
            return False
        return self._takes(key) and self._is_within(key, number)

    def _compare(self, key: Key, there: int, number: int) -> None:
        """What the script sets stays; where its network asks for another number, that is noted."""
        if there != number:
            texts = [number_text(objects.kind_of(key), each) for each in (there, number)]
            self.notes.append(f"{object_name(key)} is {texts[0]} by the script, and by its network {texts[1]}")

    def _takes(self, key: Key) -> bool:
        """Whether an entry is there that can have a value."""
        kind, entry = objects.kind_of(key), self._own.device.entries.get(key)
        if entry is None:
            self._absent.add(key)
            return False
        if entry.kind != kind:
            self._refuse(key, f"its type is {type_name(entry.kind)}, and not {type_name(kind)}")
        elif not entry.is_writable():
            self._refuse(key, f"it is {entry.access}")
        return entry.kind == kind and entry.is_writable()

    def _is_within(self, key: Key, number: int) -> bool:
        """Whether a number is within the limits of an entry."""
        low, high = values.limits_of(self._own.device.entries[key], self.node)
        is_within = (low is None or low <= number) and (high is None or number <= high)
        if not is_within:
            self._refuse(key, f"{number_text(objects.kind_of(key), number)} is outside of its limits")
        return is_within

    def _refuse(self, key: Key, why: str) -> None:
        self._refused.setdefault((key[0], why), []).append(key)

    def _tell_refused(self) -> None:
        """The entries that can't have what they should, those of an object together."""
        for (_, why), keys in self._refused.items():
            more = f" and {len(keys) - 1} more" if len(keys) > 1 else ""
            self.notes.append(f"{object_name(keys[0])}{more}: not set, as {why}")

    def _tell_absent(self) -> None:
        """The objects that the data sheet hasn't, and those that have no entry for a node."""
        missing = {index for index, _ in self._absent} - set(self._own.device.subs)
        if missing:
            self.notes.append(f"its data sheet has no {list_of([f'{index:04X}h' for index in sorted(missing)])}")
        for index in sorted({index for index, _ in self._absent} - missing):
            nodes = sorted(sub for each, sub in self._absent if each == index)
            self.notes.append(f"{index:04X}h has no sub-index for {nodes_text(nodes)}")


def of(answered: Session) -> Optional[MasterFile]:
    """The one of a session that was asked `dcf` and `cdcf`, None where the manager is no node."""
    node = answered.project.controller
    return None if node is None else MasterFile(answered.project, node, nodes_of(answered), answered.lines("dcf", node))
