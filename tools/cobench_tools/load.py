"""What the bus of a network has to carry at worst: each identifier's share, its longest wait, and its deadline."""
import functools

from . import matrix, trace, traffic, waits
from .responses import Stream, responses
from .traffic import SYNC, time_text

GREATEST_INHIBIT = 65535


def plain(each):
    """The bits of a frame without stuff bits."""
    return each.plain_bits


def most(each):
    """The bits of a frame with the most stuff bits."""
    return each.most_bits


class Analysis:
    """The worst case of all frames with a certain number of stuff bits; `of` has that of each traffic.

    bits    gives the bits of a frame
    jitter  how long after the clock SYNC may come, beyond the shortest time: TPDOs that it sends may wait so much later
    """

    def __init__(self, found, bit, bits):
        self.bit, self.bits, self.jitter = bit, bits, 0
        self.streams = {each: Stream(each.priority, bits(each) * bit, each.period, each.jitter) for each in found}
        self.of = self._responses()
        sync = next((each for each in found if each.part == ("manager",) and each.identifier == SYNC), None)
        if sync and self.of[sync].wait:
            self.jitter = self.of[sync].wait - sync.least_bits * bit
            for each in found:
                self.streams[each].jitter = self.jitter if each.is_of_sync() else each.jitter
            self.of = self._responses()

    def _responses(self):
        owners = {stream: each for each, stream in self.streams.items()}
        return {owners[response.stream]: response for response in responses(list(self.streams.values()), self.bit)}

    def duration(self, each):
        return self.streams[each].duration

    def share(self, each):
        """The share of the bus in per cent, None of one frame alone, and where nothing bounds how often it comes."""
        return None if each.period is None or each.is_once else 100 * self.duration(each) / each.period


class Load:
    """The load of a network.

    traffic  all frames, by priority
    plain    the worst cases without stuff bits
    stuffed  the worst cases with the most stuff bits
    traced   those of these by which the trace goes: in version 3 its frames have stuff bits
    seen     what the trace shows of each

    `foreign` are the frames of others on the bus.
    """

    def __init__(self, network, lines, window=None, assumed=None, foreign=()):
        self.network, self.window, self.assumed, self.foreign = network, window, assumed, foreign
        self.bit = 1000 // network.project.bitrate
        self.unbounded = [each for each in traffic.traffic_of(network) if each.period is None]
        self.traffic = traffic.traffic_of(network, assumed, foreign)
        self.plain, self.stuffed = (Analysis(self.traffic, self.bit, bits) for bits in (plain, most))
        self.traced = self.stuffed if trace.has_stuff_bits(network.project) else self.plain
        self.lines = trace.of_answer(lines, network.project)
        self.seen = waits.Waits(network, self.traffic, self.lines, self.bit).seen

    def bits(self, analysis, each):
        """How many bits a frame has."""
        return analysis.bits(each)

    def deadline(self, each, analysis=None):
        """Within which time a frame has to be there, and what says so."""
        if each.is_of_sync() and self.window is not None:
            return self.window, "the window behind SYNC"
        if each.is_of_sync():
            return each.period - (analysis or self.stuffed).jitter, "the next SYNC at which it is sent"
        consumer = least_consumer(self.network, each)
        if consumer is not None:
            return max(consumer - each.period, 0), f"what the consumer's {time_text(consumer)} leave of its period"
        return each.period, "the next one of it"

    def is_late(self, each):
        """Whether a frame may miss its deadline; None where there is no bound, and of frames that have none."""
        wait = self.stuffed.of[each].wait
        return None if wait is None or not each.has_deadline() else wait > self.deadline(each)[0]

    def total(self, analysis):
        """The share of the bus of all frames that have a bound, in per cent."""
        return sum(analysis.share(each) or 0 for each in self.traffic)

    @functools.cached_property
    def least_inhibit(self):
        """The least inhibit time, in units of 100 us, by which those without a bound make nothing late, else None."""
        if not self._holds(GREATEST_INHIBIT):
            return None
        low, high = 0, GREATEST_INHIBIT
        while high - low > 1:
            middle = (low + high) // 2
            low, high = (low, middle) if self._holds(middle) else (middle, high)
        return high

    def _holds(self, inhibit):
        """Whether all is in time where those without a bound come at most each 100 us by that number."""
        found = traffic.traffic_of(self.network, 100 * inhibit, self.foreign)
        analysis = Analysis(found, self.bit, most)
        waits_of = [(each, analysis.of[each].wait) for each in found if each.has_deadline()]
        return all(wait is not None and wait <= self.deadline(each, analysis)[0] for each, wait in waits_of)


def least_consumer(network, each):
    """The shortest time in microseconds after which somebody misses a heartbeat, None where nobody watches it."""
    if each.identifier >> 7 != 0xE or each.tpdo:
        return None
    return min((1000 * time for watched, _, time in matrix.consumers(network) if watched == each.sender), default=None)
