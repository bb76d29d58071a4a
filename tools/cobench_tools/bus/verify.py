"""Compares what a device holds with what the plan writes into it; nothing is written."""
from typing import Callable, List, Optional, Set

from ..findings import Finding
from .planned import Planned
from .sdo_client import SdoClient
from .transfer import Aborted, Failed, Key


class Comparison:
    """A node beside its plan.

    step      is called once a value is done
    process   the entries that may have another value, as RPDOs of the node write them
    findings  what isn't as planned
    compared  how many entries were read; `unreadable` how many can only be written, `changed` how many RPDOs have changed
    """

    def __init__(self, plan: Planned, client: SdoClient, process: Set[Key],
                 step: Callable[[], None] = lambda: None) -> None:
        self.plan, self.node, self.client, self.process, self.step = plan, client.node, client, process, step
        self.compared = self.unreadable = self.changed = 0
        self.findings: List[Finding] = []

    def run(self) -> "Comparison":
        """Reads and compares all; a device that doesn't answer ends it."""
        try:
            self.identity()
            self.values()
        except Failed as why:
            self._tell(why.code, why.key, why.text)
        return self

    def _tell(self, code: str, key: Optional[Key], text: str) -> None:
        name = f"{self.plan.entry(self.node, key)}: " if key else ""
        self.findings.append(self.plan.finding(code, self.node, key, name + text))

    def identity(self) -> None:
        """Compares the numbers that say who the device is, as a manager does before it writes."""
        for key, expected in self.plan.nodes[self.node].identity.items():
            if expected:
                self._compare("identity", key, expected.to_bytes(4, "little"))

    def values(self) -> None:
        """Compares each entry that the plan writes."""
        for key, data in self.plan.values(self.node).items():
            if self.plan.is_readable(self.node, key):
                self._compare("differs", key, data)
            else:
                self.unreadable += 1
            self.step()

    def _compare(self, code: str, key: Key, planned: bytes) -> None:
        try:
            found = self.client.read(key, len(planned))
        except Aborted as why:
            if why.is_own:
                raise
            self._tell(why.code, key, f"{self._text(key, planned)} is planned, and reading it ends by {why.text}")
            return
        self.compared += 1
        if is_same(code, planned, found):
            return
        if key in self.process:
            self.changed += 1
        else:
            self._tell(code, key, f"{self._text(key, planned)} is planned, and the device has {self._text(key, found)}")

    def _text(self, key: Key, data: bytes) -> str:
        return self.plan.value_text(self.node, key, data)


def is_same(code: str, planned: bytes, found: bytes) -> bool:
    """Whether a value is the planned one; a number of the identity may have fewer bytes."""
    if code == "identity":
        found = found.ljust(len(planned), b"\0")
    return found == planned
