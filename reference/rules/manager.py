"""The manager: the boot of each node, the start of the network, and what it sends by itself: docs/rules/manager.md.

In version 3 nodes are started one by one, and none that isn't configured, where version 2 starts all at once. A node
with the manager's number is the controller, the device that the manager runs in: it isn't booted, sends the boot-up
message in the manager's place, and is started with the network, and from then on at each of its boot-ups."""
from typing import NamedTuple, Optional, Tuple
from . import sdo
from .devices import START
from .entries import IDENTITY
from .frames import (ERROR_CONTROL, SDO_ANSWER, SDO_REQUEST, SYNC, Frame, WaitingFrames, boot_up_message, is_boot_up,
                     nmt_message, time_message)
from .write_check import Place

NOT_BOOTED, CONFIGURED, FAILED = "not booted", "configured", "failed"

class Boot(NamedTuple):
    """An open boot: the entries that are still to be compared, each with its number; then the number of the write."""
    expected: Tuple[Tuple[Place, int], ...]
    number: int = 0
    transfer: Optional[sdo.Transfer] = None
    deadline: Optional[int] = None

class Manager:
    """read(part, ..) gives what is expected of a node, or one of its writes, if any."""
    def __init__(self, roster, read):
        self.roster, self.read = roster, read
        self.heartbeat_us = 1000 * roster.heartbeat_ms
        self.waiting = WaitingFrames()
        self.stages = {node: NOT_BOOTED for node in roster.booted}             # or a Boot, CONFIGURED, FAILED
        self.has_started_network = False
        self.notes = []                                # of this instant, with their nodes
        if roster.controller is None:
            self.waiting.add(("boot-up",), boot_up_message(roster.manager))

    # -------------------------------------------------------- boot of a node
    def take(self, frame, now):
        node = frame.id - ERROR_CONTROL
        if is_boot_up(frame) and node in self.stages:
            self.boot(node, now)
        if is_boot_up(frame) and node == self.roster.controller and self.has_started_network:
            self.command(START, node)
        node = frame.id - SDO_ANSWER
        if isinstance(self.stages.get(node), Boot) and len(frame.data) == 8:
            self.take_answer(node, frame.data, now)

    def boot(self, node, now):
        if self.stages[node] == CONFIGURED:
            self.notes.append((node, b"lost"))
        self.waiting.drop(("sdo", node))
        expected = zip(IDENTITY, self.read("Expect", node))
        self.go_on(node, Boot(tuple((place, number) for place, number in expected if number)), now)

    def send_sdo(self, node, frame):
        self.waiting.add(("sdo", node), Frame(SDO_REQUEST + node, frame))

    def request(self, node, boot, progress, now):
        """Sends the next frame of a transfer."""
        self.send_sdo(node, progress.frame)
        self.stages[node] = boot._replace(transfer=progress.transfer, deadline=now + 1000 * self.roster.timeout_ms)

    def go_on(self, node, boot, now):
        """With the next comparison, else with the next write; else the node is configured."""
        if boot.expected:
            self.request(node, boot, sdo.upload_start(boot.expected[0][0]), now)
            return
        write = self.read("Boot", node, boot.number)
        if write is None:
            self.end_configured(node)
        else:
            self.request(node, boot, sdo.download_start(*write), now)

    def take_answer(self, node, answer, now):
        boot = self.stages[node]
        progress = sdo.after_answer(boot.transfer, answer)
        if progress.failure is not None:
            self.end_failed(node, progress, b"%08X" % progress.failure)
        elif progress.transfer is not None:
            self.request(node, boot, progress, now)
        elif not boot.expected:
            self.go_on(node, boot._replace(number=boot.number + 1), now)
        elif len(progress.read) > 4 or int.from_bytes(progress.read, "little") != boot.expected[0][1]:
            self.end_failed(node, progress, b"difference")
        else:
            self.go_on(node, boot._replace(expected=boot.expected[1:]), now)

    def end_failed(self, node, progress, reason):
        if progress.frame is not None:
            self.send_sdo(node, progress.frame)
        self.stages[node] = FAILED
        self.notes.append((node, b"failed " + reason))

    # ----------------------------------------------------------------- start
    def end_configured(self, node):
        self.stages[node] = CONFIGURED
        self.notes.append((node, b"configured"))
        if self.roster.version == 1 or self.has_started_network:
            self.command(START, node)
        elif all(self.stages[each] == CONFIGURED for each in self.roster.mandatory):
            self.has_started_network = True
            self.start_network()

    def start_network(self):
        """In version 3 the controller too, which has no stage."""
        ready = [node for node in self.roster.nodes if self.stages.get(node, CONFIGURED) == CONFIGURED]
        for node in ready if self.roster.version >= 3 else [0]:
            self.command(START, node)

    def command(self, service, node):
        self.waiting.add(("nmt",), nmt_message(service, node))

    # ---------------------------------------------------------------- timers
    def run_timers(self, now):
        """The time-outs by node, the heartbeat, TIME, SYNC."""
        for node, stage in self.stages.items():
            if isinstance(stage, Boot) and stage.deadline == now:
                self.waiting.drop(("sdo", node))
                self.end_failed(node, sdo.client_abort(stage.transfer, sdo.TIMED_OUT), b"timeout")
        if self.is_due(self.heartbeat_us, now):
            self.waiting.replace(("heartbeat",), Frame(ERROR_CONTROL + self.roster.manager, b"\x05"))
        if self.is_due(self.roster.time_us, now):
            self.waiting.replace(("time",), time_message(now, self.roster.day))
        if self.is_due(self.roster.sync_us, now):
            counter, number = self.roster.sync_counter, now // self.roster.sync_us - 1     # it goes by the moment alone
            self.waiting.replace(("sync",), Frame(SYNC, bytes([number % counter + 1]) if counter else b""))

    def is_due(self, period, now):
        """At the whole multiples of the period above 0; a period of 0 is none."""
        return period > 0 and now > 0 and now % period == 0

    def moments(self, now):
        deadlines = [stage.deadline for stage in self.stages.values() if isinstance(stage, Boot)]
        periods = self.heartbeat_us, self.roster.time_us, self.roster.sync_us
        return deadlines + [(now // period + 1) * period for period in periods if period]
