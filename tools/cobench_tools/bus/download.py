"""What the manager of the plan does at a boot of a node: it compares who it is, writes its concise DCF, and starts it.

Besides, each value is read back before the start, and nothing is started that isn't confirmed.
"""
from typing import Callable, List, Optional, Tuple

from ..findings import Finding
from .connection import Connection
from .neighbours import Neighbours
from .planned import Planned
from .sdo_client import SdoClient
from .transfer import Aborted, Failed, Key
from .verify import Comparison

SETTLED = 0.02      # seconds without a word of the node before it counts as configured


class Download:
    """The boot of a node.

    done        how many of its writes were confirmed
    open        the write that was sent and has no answer yet, None for none
    finding     why it failed, None where it didn't
    is_written, is_configured  whether all is confirmed, and whether all was read back too
    is_started  whether its start was sent
    """

    def __init__(self, plan: Planned, client: SdoClient, others: Neighbours, reads_back: bool = True) -> None:
        self.plan, self.node, self.client, self.others, self.reads_back = plan, client.node, client, others, reads_back
        self.writes = plan.nodes[self.node].writes
        self.done = 0
        self.open: Optional[Tuple[Key, bytes]] = None
        self.finding: Optional[Finding] = None
        self.is_written = self.is_configured = self.is_started = False
        self.boots = others.boots.get(self.node, 0)

    def run(self, step: Callable[[], None] = lambda: None) -> "Download":
        """Compares, writes and reads back; what goes wrong ends it."""
        try:
            self._identity()
            for key, data in self.writes:
                self.open = key, data
                self.client.write(key, data)
                self.done, self.open = self.done + 1, None
                step()
            self.is_written = True
            self._read_back()
        except Failed as why:
            self.client.key, text = None, self._what(why.key) + why.text
            self.open = None if isinstance(why, Aborted) and not why.is_own else self.open
            self.fail(why.code, why.key, text)
        return self

    def _what(self, key: Optional[Key]) -> str:
        """What a failure was of, in words."""
        if self.open:
            return f"{self.plan.write_text(self.node, *self.open)}: "
        return f"{self.plan.entry(self.node, key)}: " if key else ""

    def _identity(self) -> None:
        """The first number that is another one ends the boot."""
        for key, expected in self.plan.nodes[self.node].identity.items():
            if expected:
                found = int.from_bytes(self.client.read(key, 4), "little")
                if found != expected:
                    raise Failed("identity", self.node, key, f"the device has {found:08X}h, and the data sheet "
                                 f"{expected:08X}h: it is another device")

    def _read_back(self) -> None:
        if self.reads_back:
            comparison = Comparison(self.plan, self.client, set())
            comparison.values()
            if comparison.findings:
                self._take(comparison.findings[0])
                return
        self.client.check_quiet(SETTLED)
        self.is_configured = True

    def fail(self, code: str, key: Optional[Key], text: str) -> None:
        """The boot failed; the first cause counts."""
        if not self.finding:
            self._take(self.plan.finding(code, self.node, key, text))

    def _take(self, finding: Finding) -> None:
        self.is_configured = False
        finding.notes += ((finding.place, self.stand()),)
        self.finding = finding

    def stand(self) -> str:
        """How far the boot has come, in words."""
        count = len(self.writes)
        text = f"{self.done} of {count} writes are confirmed"
        if 0 < self.done < count:
            text += f", the last one {self.plan.write_text(self.node, *self.writes[self.done - 1])}"
        if self.open:
            text += f"; whether {self.plan.write_text(self.node, *self.open)} is written isn't known"
        return text + ("" if self.is_started else "; the node isn't started")

    def is_ready(self) -> bool:
        """Whether the node can be started: all of it was confirmed, and it hasn't booted since."""
        if self.is_configured and self.others.boots.get(self.node, 0) != self.boots:
            self.fail("boots-again", None, "it booted after it was configured")
        return self.is_configured


class Network:
    """The boots of several nodes, one after the other, and their starts.

    is_whole  whether they are all nodes that the manager of the plan boots
    version   that of the script, which says how they are started
    commands  the start commands that were sent: 0 for all, else a node
    """

    START = 1

    def __init__(self, plan: Planned, downloads: List[Download], bus: Connection, others: Neighbours) -> None:
        self.plan, self.downloads, self.bus, self.others = plan, downloads, bus, others
        self.is_whole = {each.node for each in downloads} >= set(plan.project.booted)
        self.version = plan.project.version
        self.commands: List[int] = []

    def run(self, step: Callable[[], None], with_start: bool = True) -> None:
        """Boots all, and starts what is to be started."""
        for download in self.downloads:
            download.run(step)
            if with_start and self.version == 1:
                self._start([download])
        if with_start and self.version > 1:
            self._start_network()

    def missing(self) -> List[int]:
        """The mandatory nodes that aren't configured, which keep the network from being started."""
        mandatory = self.plan.project.mandatory
        return [each.node for each in self.downloads if each.node in mandatory and not each.is_ready()]

    def _start_network(self) -> None:
        """In version 2 one command starts all, but where it would start a node that isn't configured: then each by itself, as
        in version 3."""
        self.bus.waiting()
        if self.is_whole and self.missing():
            return
        unplanned = self.others.heard - set(self.plan.nodes)
        if self.version == 2 and self.is_whole and not unplanned and all(each.is_ready() for each in self.downloads):
            self._send(0, self.downloads)
        else:
            self._start(self.downloads)

    def _start(self, downloads: List[Download]) -> None:
        """Starts each of these that is ready by itself."""
        self.bus.waiting()
        for each in downloads:
            if each.is_ready():
                self._send(each.node, [each])

    def _send(self, target: int, downloads: List[Download]) -> None:
        self.bus.send(0, bytes([self.START, target]))
        self.commands.append(target)
        for each in downloads:
            each.is_started = True
