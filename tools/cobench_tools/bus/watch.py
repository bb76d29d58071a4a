"""Judges a bus as it happens, by the rules of `conform`: what isn't as planned is told as it comes."""
import copy
import time
from collections import Counter
from typing import Any, Callable, Dict, List, Optional, Set, cast

from ..conform.causes import Cause, Causes
from ..conform.heartbeat import state_name
from ..conform.judge import Judge
from ..conform.plan import Plan
from ..conform.report import ConformReport, seconds
from ..conform.run import planned_causes, tell_load
from ..conform.tolerance import Tolerance
from ..findings import Finding, lines_of
from ..logs.messages import found_of
from ..logs.rows import Aside
from ..logs.intake import Block
from .connection import Connection
from .last_frames import LastFrames

# Whether the user has accepted a finding.
Accepts = Callable[[Finding], bool]

STEP = 0.1              # seconds of the bus that are judged at once
MOST_AT_ONCE = 5_000    # messages
LOOK = 1.0              # seconds between two looks at what stays away, at least
SHARE = 10              # of the time between two looks, one part of so many goes into them
SILENT = 2.0            # seconds without any frame that are told
BOOTS = "sdo-"          # what is missing in a boot isn't told before the boot is over


class Format:
    """The bus as the format of a log."""

    name, title, resolution = "bus", "the bus", 1


class BusLog:
    """The bus as a log that goes on, as the report of `conform` wants one; the number of a message stands for its line.

    path  what stands before the number: the log that is written, else the channel
    """

    has_times, cut, format = True, None, Format()

    def __init__(self, path: str) -> None:
        self.path, self.frames, self.last, self.line = path, 0, 0, 0
        self.aside: Dict[str, int] = Counter()
        self.start: Optional[int] = None
        self.open = Block([], [], [])

    def block(self, bus: Connection, until: float) -> Block:
        """What comes up to a time of the monotonic clock."""
        message = bus.message(until)
        while message is not None:
            self._take(self.open, found_of(message))
            message = bus.message(until) if self.line % MOST_AT_ONCE else None
        return self.rest()

    def rest(self) -> Block:
        """What came and was in no block so far."""
        block, self.open = self.open, Block([], [], [])
        self.frames += len(block.rows)
        return block

    def _take(self, block: Block, found: Any) -> None:
        is_aside = isinstance(found, Aside)
        self.line += 1
        self.last = max(self.last, found.time if is_aside else found[0])
        self.start = self.last if self.start is None else self.start
        if is_aside:
            found.time, found.line = self.last, self.line
            self.aside[found.kind] += 1
            cast(List[Aside], block.aside).append(found)
        else:
            block.rows.append((self.last, found[2], found[3]))
            cast(List[int], block.numbers).append(self.line)


class LiveReport(ConformReport):
    """Tells single causes while the log goes on."""

    def __init__(self, plan: Plan, judge: Judge, log: BusLog) -> None:
        self.plan, self.judge, self.log = plan, judge, log

    @property
    def zero(self) -> int:
        return self.log.start or 0


class Watch:
    """The judge of a bus.

    told     the keys of the causes that were told
    states   the state of each node as it was told last
    drawn    what draws the frames, None for nothing
    """

    def __init__(self, plan: Plan, tolerance: Tolerance, log: BusLog, window: Optional[int] = None,
                 is_exact: bool = False, drawn: Optional[LastFrames] = None) -> None:
        self.plan, self.log, self.drawn = plan, log, drawn
        causes = Causes(plan, planned_causes(plan, tolerance, window), tolerance)
        self.judge = Judge(plan, tolerance, causes, window, is_exact)
        self.report = LiveReport(plan, self.judge, log)
        self.told: Set[Any] = set()
        self.states: Dict[int, int] = {}
        self.began = self.heard = time.monotonic()
        self.next_look, self.is_silent = self.began + LOOK, False

    def step(self, bus: Connection, accepts: Accepts) -> List[str]:
        """Judges what comes in a while; the lines that there are to tell of it."""
        block = self.log.block(bus, time.monotonic() + STEP)
        lines = self._silence(block)
        self.take(block)
        lines += self._causes(self.judge.causes.found, accepts) + self._changes()
        return lines + (self._look(accepts) if time.monotonic() >= self.next_look else [])

    def take(self, block: Block) -> None:
        """Judges a block, and has it drawn."""
        if block.rows or block.aside:
            self.judge.take(block)
        if self.drawn and block.rows:
            self.drawn.take(block)

    def _silence(self, block: Block) -> List[str]:
        """That nothing comes at all, and that something comes again."""
        now, before = time.monotonic(), self.heard
        if block.rows:
            was_silent, self.heard, self.is_silent = self.is_silent, now, False
            return [f"{self._now()}: frames come again"] if was_silent else []
        if self.is_silent or now - before < SILENT:
            return []
        self.is_silent = True
        return [f"{self._now()}: no frame comes, for {SILENT:g} s"]

    def _now(self) -> str:
        """The time of the last message, from the first one on."""
        return seconds(self.log.last - self.log.start) if self.log.start is not None else seconds(0)

    def _causes(self, found: Dict[Any, Cause], accepts: Accepts,
                is_wanted: Callable[[Cause], bool] = lambda cause: True) -> List[str]:
        """The lines on causes that weren't told before."""
        new = [cause for key, cause in found.items() if key not in self.told and is_wanted(cause)]
        self.told.update(cause.key for cause in new)
        findings = [self.report.finding(cause) for cause in new]
        return lines_of([finding for finding in findings if not accepts(finding)])

    def _changes(self) -> List[str]:
        """A line on each node whose state is another one."""
        lines = []
        for number, node in self.judge.nodes.items():
            if node.state is not None and node.state != self.states.get(number):
                self.states[number] = node.state
                lines.append(f"{self._now()}: {self.plan.name(number)}: {state_name(node.state)}")
        return lines

    def _look(self, accepts: Accepts) -> List[str]:
        """What would be told if the log ended here, as that something stays away."""
        start, lines = time.monotonic(), []
        if self.judge.begin is not None and not self.is_silent:
            ended = self.copied()
            ended.finish()
            found = {cause.key: cause for cause in ended.causes.all()}
            lines = self._causes(found, accepts, lambda cause: not cause.code.startswith(BOOTS))
        self.next_look = time.monotonic() + max(LOOK, SHARE * (time.monotonic() - start))
        return lines

    def copied(self) -> Judge:
        """A copy of the judge, with what it doesn't change in common."""
        judge = self.judge
        same = (judge.plan, judge.tolerance, judge.bus, judge.causes.planned, judge.causes.waits, judge.places)
        return copy.deepcopy(judge, {id(each): each for each in same})

    def finish(self, most: Optional[float] = None) -> ConformReport:
        """The report of `conform` on all of it."""
        self.judge.finish()
        if most is not None:
            tell_load(self.judge, most)
        return ConformReport(self.plan, self.judge, self.log)

    def unheard(self) -> List[str]:
        """The nodes of which nothing was heard, in words."""
        return [self.plan.name(number) for number, node in self.judge.nodes.items() if node.first is None]
