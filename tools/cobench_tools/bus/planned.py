"""The plan of a script on the bus: which of its nodes are meant, their writes, and what is told of them."""
import argparse
from typing import Dict, Iterable, List, Optional, Set

from .. import acceptance, findings, judgement, session, tool, within
from ..conform.plan import Plan
from ..evidence import Evidence
from ..file_difference import pdo_text
from ..wiring import RPDO
from . import value
from .transfer import Key


def add_arguments(parser: argparse.ArgumentParser, with_nodes: bool = True) -> None:
    """The words that name the script, and those of its nodes that are meant."""
    parser.add_argument("script", metavar="SCRIPT", help="the script, with comments and files")
    if with_nodes:
        parser.add_argument("nodes", metavar="NODE", nargs="*", type=int,
                            help="the numbers of the nodes; without one all of SCRIPT")
    session.add_arguments(parser)
    within.add_argument(parser)


class Planned(Plan):
    """The plan of a script, that of `conform`, with what downloads and comparisons say of it.

    path  the script
    """

    def __init__(self, path: str, cobench: Optional[str]) -> None:
        super().__init__(session.run(path, cobench, Evidence.QUERIES))
        self.path = path

    @property
    def timeout(self) -> float:
        """The seconds for which the manager waits for an answer."""
        return self.project.manager[3] / 1000

    def chosen(self, numbers: List[int]) -> List[int]:
        """The nodes of these numbers, without one all, by number; each has to be planned."""
        for number in numbers:
            if number not in self.nodes:
                why = ": it is the manager" if number == self.manager else ""
                raise tool.Fault(f"{tool.name_of(self.path)} has no node {number}{why}")
        if not self.nodes:
            raise tool.Fault(f"{tool.name_of(self.path)} has no nodes")
        return sorted(set(numbers) or self.nodes)

    def to_boot(self, numbers: List[int]) -> List[int]:
        """The same, without one those that the manager boots."""
        if not numbers and self.nodes and not self.project.booted:
            raise tool.Fault(f"{tool.name_of(self.path)} has no node but the manager")
        return self.chosen(numbers or self.project.booted)

    def values(self, node: int) -> Dict[Key, bytes]:
        """The last value that is written into each entry of a node, in the order of the writes."""
        return dict(self.nodes[node].writes)

    def is_readable(self, node: int, key: Key) -> bool:
        entry = self.evidence.device(node).entries.get(key)
        return entry is None or entry.access != "wo"

    def process(self, node: int) -> Set[Key]:
        """The entries of a node that its RPDOs write while it is operational."""
        return {part.key for pdo in self.wiring.nodes[node].pdos(RPDO) for part in pdo.parts if not part.is_dummy()}

    def value_text(self, node: int, key: Key, data: bytes) -> str:
        """A value of an entry in words."""
        entry = self.evidence.device(node).entries.get(key)
        return pdo_text(key, data) or value.text_of(entry.kind if entry else 0, data)

    def write_text(self, node: int, key: Key, data: bytes) -> str:
        """A write in words."""
        return f"{self.entry(node, key)} := {self.value_text(node, key, data)}"

    def finding(self, code: str, node: int, key: Optional[Key], text: str,
                notes: Iterable[str] = ()) -> findings.Finding:
        """Something that is wrong with a node on the bus, at the line that has the entry written."""
        place = self.write_place(node, key) if key else None
        place = place or self.place(("node", node))
        words = f"{code} {node}" + (f" {key[0]:04X} {key[1]:02X}" if key else "")
        return findings.Finding(place, words, f"node {node}", self.name(node), text, [(place, note) for note in notes])

    def own_errors(self, options: argparse.Namespace) -> int:
        """How many errors the script itself has that aren't accepted."""
        found = judgement.of(self.answered)
        acceptance.judge(found, options)
        return sum(each.severity == findings.ERROR and not each.accepted for each in found)
