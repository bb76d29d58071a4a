"""The longest time from when a frame waits for a CAN bus to when it is there whole.

By R. I. Davis, A. Burns, R. J. Bril and J. J. Lukkien, "Controller Area Network (CAN) schedulability analysis: Refuted,
revisited and revised", Real-Time Systems 35 (2007): a frame that has started is never stopped, so each waits for the
longest of lower priority (blocking); the frames of higher priority that come meanwhile go before it; and the worst of
an identifier may be any of its frames in the longest time for which the bus is busy with it and those above it.

All times are whole microseconds.
"""
from fractions import Fraction

LONGEST_BUSY = 1_000_000_000


class Stream:
    """The frames of an identifier.

    identifier  by which the bus decides: the lower one goes first
    duration    how long one takes the bus
    period      the least time between two of its events, None where nothing bounds it
    jitter      how much later than its event a frame may begin to wait
    """

    def __init__(self, identifier, duration, period, jitter=0):
        self.identifier, self.duration, self.period, self.jitter = identifier, duration, period, jitter


class Response:
    """The worst case of a stream.

    wait      from when its frame begins to wait to when it is there whole, None where there is no bound
    total     the same from its event
    blocking  what it waits for the frame of lower priority that had just started
    earlier   the frames of its own identifier that go before it
    higher    the streams of higher priority, and how many frames of each go before it
    why       without a bound: the stream that has none, or None where the frames ask for more than the bus can carry
    """

    def __init__(self, stream):
        self.stream, self.wait, self.total = stream, None, None
        self.blocking, self.earlier, self.higher, self.why = 0, 0, [], None

    def is_overload(self):
        """Whether there is no bound, as the frames ask for more than the bus can carry."""
        return self.wait is None and self.why is None

    def frames_before(self):
        """How many frames of higher priority go before it, and for how long they take the bus."""
        return sum(count for _, count in self.higher), sum(count * other.duration for other, count in self.higher)


def ceiling(number, divisor):
    return -(-number // divisor)


class Level:
    """A stream with the streams of higher priority: how long they keep the bus busy.

    groups  the time that one frame of each stream of higher priority takes, summed up by period and jitter
    bit     the time of a bit, within which a frame that comes still takes part in arbitration
    """

    def __init__(self, stream, groups, blocking, bit):
        self.stream, self.groups, self.blocking, self.bit = stream, groups, blocking, bit

    def is_overload(self):
        """Whether the frames ask for as much as the bus can carry, or more."""
        stream = self.stream
        share = sum(Fraction(duration, period) for (period, _), duration in self.groups.items())
        return share + Fraction(stream.duration, stream.period) >= 1

    def higher(self, time, also=0):
        """What the streams of higher priority take of the bus in a time."""
        return sum(ceiling(time + jitter + also, period) * duration
                   for (period, jitter), duration in self.groups.items())

    def busy(self):
        """The longest time for which they keep the bus busy, None where it is beyond all measure."""
        stream, time, last = self.stream, self.stream.duration, 0
        while time != last and time <= LONGEST_BUSY:
            last = time
            own = ceiling(time + stream.jitter, stream.period) * stream.duration
            time = self.blocking + own + self.higher(time)
        return time if time == last else None

    def delay(self, instance, start):
        """When the frame of a number, from 0 on, starts at the latest after the start of the busy time."""
        time, last = start, None
        while time != last:
            last = time
            time = self.blocking + instance * self.stream.duration + self.higher(time, self.bit)
        return time


def response_of(level):
    """The worst case of a stream on its level, or None where there is none."""
    stream, busy = level.stream, None if level.is_overload() else level.busy()
    if busy is None:
        return None
    worst, delay = None, level.blocking
    for instance in range(ceiling(busy + stream.jitter, stream.period)):
        delay = level.delay(instance, delay)
        total = stream.jitter + delay - instance * stream.period + stream.duration
        wait = total if instance else delay + stream.duration
        if worst is None or total > worst[0]:
            worst = total, max(wait, worst[1] if worst else 0), instance, delay
        elif wait > worst[1]:
            worst = worst[0], wait, *worst[2:]
    return worst


def responses(streams, bit):
    """The worst case of each stream, by priority; streams with one identifier count as higher for one another."""
    order = sorted(streams, key=lambda stream: stream.identifier)
    longest = [0] * (len(order) + 1)
    for place in range(len(order) - 1, -1, -1):
        longest[place] = max(order[place].duration, longest[place + 1])
    found = []
    for stream in order:
        higher = [other for other in order if other.identifier <= stream.identifier and other is not stream]
        first_lower = len(higher) + 1
        found.append(of_stream(stream, higher, longest[first_lower], bit))
    return found


def of_stream(stream, higher, blocking, bit):
    """The worst case of a stream under those of higher priority."""
    response = Response(stream)
    response.blocking = blocking
    response.why = next((each for each in higher + [stream] if each.period is None), None)
    if response.why:
        return response
    groups = {}
    for other in higher:
        key = other.period, other.jitter
        groups[key] = groups.get(key, 0) + other.duration
    worst = response_of(Level(stream, groups, blocking, bit))
    if worst:
        response.total, response.wait, response.earlier, delay = worst
        response.higher = [(other, ceiling(delay + other.jitter + bit, other.period)) for other in higher]
    return response
