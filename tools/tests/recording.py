"""Recordings of runs in which faults are planted: the frames by their places, and what stands round them."""
import bisect

FILLER = 0x010
DOWNLOADS = (0x2F, 0x2B, 0x27, 0x23)


class Recording:
    """The frames of a planned run, with what the plan says of them."""

    def __init__(self, plan, frames, dice):
        self.plan, self.dice = plan, dice
        self.frames = [list(frame) for frame in frames]
        self.end = self.frames[-1][0] if self.frames else 0
        self.by_identifier, self.busy = {}, {}
        for place, (time, identifier, data) in enumerate(self.frames):
            self.by_identifier.setdefault(identifier, []).append(place)
            self.busy[time // 10_000] = self.busy.get(time // 10_000, 0) + (47 + 8 * len(data)) * plan.bit
        self.tpdos = {}
        for tpdo in plan.wiring.tpdos:
            self.tpdos.setdefault(tpdo.identifier, []).append(tpdo)
        self.tpdos = {identifier: several[0] for identifier, several in self.tpdos.items() if len(several) == 1}

    def places(self, fits):
        """The places of the frames for which something holds."""
        return [place for place, frame in enumerate(self.frames) if fits(*frame)]

    def of(self, identifier):
        return self.by_identifier.get(identifier, [])

    def before(self, identifier, place):
        """The last place up to one of a frame with an identifier, None for none."""
        places = self.of(identifier)
        at = bisect.bisect_right(places, place)
        return places[at - 1] if at else None

    def behind(self, identifier, place):
        """The first place from one on of a frame with an identifier, None for none."""
        places = self.of(identifier)
        at = bisect.bisect_left(places, place)
        return places[at] if at < len(places) else None

    def pick(self, places):
        return self.dice.one(places) if places else None

    def without(self, *places):
        return [frame for place, frame in enumerate(self.frames) if place not in places]

    def filled(self, is_gone):
        """The frames, those that are gone being others that mean nothing, so that the bus is as busy as before."""
        return [[frame[0], FILLER, frame[2]] if is_gone(place, frame) else frame for place, frame in enumerate(self.frames)]

    def changed(self, place, data=None, identifier=None):
        time, old, bytes_ = self.frames[place]
        frame = [time, old if identifier is None else identifier, bytes_ if data is None else bytes(data)]
        return self.frames[:place] + [frame] + self.frames[place + 1:]

    def inserted(self, time, *added):
        """The frames with others in the first gap from a time on that has room for them, and the line of the first of these."""
        took = [(47 + 8 * len(data)) * self.plan.bit for _, data in added]
        for place, before in enumerate(self.frames[:-1]):
            start, behind = max(before[0], time), self.frames[place + 1]
            if behind[0] - (47 + 8 * len(behind[2])) * self.plan.bit >= start + sum(took):
                fresh = [[start + sum(took[:n + 1]), identifier, bytes(data)] for n, (identifier, data) in enumerate(added)]
                return self.frames[:place + 1] + fresh + self.frames[place + 1:], place + 2
        return None

    def is_calm(self, start, end, most=0.6):
        """Whether the bus has room in each 10 ms of a time."""
        windows = range((start - 10_000) // 10_000, (end + 10_000) // 10_000 + 1)
        return max(self.busy.get(window, 0) for window in windows) <= most * 10_000

    def has_gap_before(self, place):
        """Whether the bus was idle before a frame, so that it can't have waited."""
        time, _, data = self.frames[place]
        return place > 0 and time - (47 + 8 * len(data)) * self.plan.bit - self.frames[place - 1][0] > 1_500

    def calm(self, places):
        """Those of some places round which the bus has room."""
        return [place for place in places if self.is_calm(self.frames[place][0] - 10_000, self.frames[place][0] + 10_000)]

    def pdos(self, fits=lambda tpdo: True):
        """The places of PDOs that are of one TPDO each, for which something holds."""
        return self.places(lambda time, identifier, data: identifier in self.tpdos and fits(self.tpdos[identifier]))

    # SDO.

    def requests(self, fits):
        """The places of expedited writes that are answered by the next frame of their node, and the places of the answers."""
        found = []
        for place, (_, identifier, data) in enumerate(self.frames):
            if 0x600 < identifier < 0x680 and data[0] in DOWNLOADS and fits(int.from_bytes(data[1:3], "little"), data[3]):
                answer = self.answer(place)
                if answer is not None and self.frames[answer][2][0] == 0x60:
                    found.append((place, answer))
        return found

    def answer(self, place):
        """The place of the next frame of the node to which a request goes, None where another request comes before."""
        node = self.frames[place][1] - 0x600
        found, request = self.behind(0x580 + node, place + 1), self.next_request(place)
        return None if found is None or request is not None and request < found else found

    def next_request(self, place):
        """The place of the next request to the same node."""
        return self.behind(self.frames[place][1], place + 1)
