"""Times in which nothing of the network was recorded, though several senders had to be heard: the recorder, its clock, or the bus."""
import bisect

from ..logs.intake import Block
from .causes import Spot
from .plan import milliseconds
from .tolerance import NEVER

SENDERS = 2


class Gaps:
    """Looks for them.

    least  the microseconds after which so many senders have to be heard again
    last   the time and line of the last frame so far
    """

    def __init__(self, judge):
        self.judge, self.last = judge, None
        senders = sorted(self._longest(streams) for streams in self._senders())
        self.least = senders[SENDERS - 1] if len(senders) >= SENDERS else NEVER

    def _senders(self):
        """What each sender sends by itself, the manager first, which the controller is."""
        judge = self.judge
        yield [judge.sync] + self._streams(judge.manager)
        for node in judge.nodes.values():
            if node is not judge.manager:
                yield self._streams(node)

    @staticmethod
    def _streams(node):
        """What a node sends by itself, without SYNC."""
        return [node.heartbeat] + [pdo for pdo in node.pdos.values() if not pdo.needs_sync]

    @staticmethod
    def _longest(streams):
        """How long a sender is quiet at most."""
        return min((stream.high for stream in streams if stream.comes_by_itself()), default=NEVER)

    def parts(self, block):
        """The parts of a block between which nothing was recorded for so long, nearly always all of it."""
        times, before = block.times, self.last
        self.last = Spot(times[-1], block.numbers[-1])
        if (before is None or times[0] - before.time <= self.least) and not self._has_gap(times):
            return (block,)
        return self._split(block, times, before)

    def _has_gap(self, times):
        """Whether more than that lies between two of these times: it goes from one to the last one that is near enough."""
        place, last = 0, len(times) - 1
        while place < last:
            following = bisect.bisect_right(times, times[place] + self.least, place) - 1
            if following == place:
                return True
            place = following
        return False

    def _split(self, block, times, before):
        start = 0
        for place, time in enumerate(times):
            if before is not None and time - before.time > self.least:
                if place > start:
                    yield Block(block.rows[start:place], block.numbers[start:place])
                self._judge(before, Spot(time, block.numbers[place]))
                start = place
            before = Spot(time, block.numbers[place])
        yield Block(block.rows[start:], block.numbers[start:])

    def _judge(self, before, after):
        """Reports a gap where several senders had to be heard in it that weren't late before; all begins anew behind it."""
        silent = sum(any(stream.is_late(after.time) and not stream.is_late(before.time) for stream in streams)
                     for streams in self._senders())
        if silent < SENDERS:
            return
        text = (f"nothing of the network was recorded for {milliseconds(after.time - before.time)}, and {silent} senders had to be heard: "
                "the recorder or its clock, or all of the bus")
        self.judge.causes.tell("gap", ["bus"], ("bus",), text, *after, [(before.line, "the last frame before")])
        self.judge.begin_anew(after.time)
