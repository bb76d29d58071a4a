"""Follows the writes of a node's boot beside its concise DCF, and the numbers that are read of it."""
from .causes import Spot
from .sdo import names

HEARTBEAT_TIME = 0x1017, 0
PDO_OBJECTS = range(0x1400, 0x1C00)
SHOWN = 4


class Boot:
    """The boot of a node.

    writes    the planned writes in their order
    place     how many of them are behind, None where that isn't known: the log began later
    skipped   the places of those that were passed over, each with where that was seen
    other     the places of those that were written with another value
    started   where the node was started while writes were left, and none of them came since
    is_planned  whether the manager boots the node: the controller may be written by others, in any order
    """

    def __init__(self, judge, node):
        self.judge, self.node, self.writes = judge, node, node.planned.writes
        self.place, self.skipped, self.other, self.started = None, {}, set(), None
        self.keys, self.is_planned = {key for key, _ in self.writes}, not node.planned.is_controller

    # Its beginning and its end.

    def begin(self, is_expected):
        """The node's boot-up message came; where that wasn't expected, the manager may leave it at that."""
        self.finish()
        self.place, self.skipped, self.other, self.started = (0 if is_expected and self.is_planned else None), {}, set(), None

    def start(self, time, line):
        """The node was started."""
        if self.place is not None and self.place < len(self.writes):
            self.started = self.started or Spot(time, line)

    def pause(self):
        """Nothing was recorded for a while: where it is, isn't known."""
        self.place, self.skipped, self.other, self.started = None, {}, set(), None

    def finish(self):
        """The boot is over: what wasn't written is missing."""
        missing = dict(self.skipped)
        if self.started:
            missing.update((place, self.started) for place in range(self.place, len(self.writes)))
        self.skipped, self.started = {}, None
        places = sorted(place for place in missing if place not in self.other)
        while places:
            run = [places[0]]
            while len(run) < len(places) and places[len(run)] == run[-1] + 1 and missing[places[len(run)]] == missing[run[0]]:
                run.append(places[len(run)])
            self._missing(run, missing[run[0]])
            places = places[len(run):]

    def _missing(self, run, spot):
        key = self.writes[run[0]][0]
        texts = [self._text(*self.writes[place]) for place in run[:SHOWN]]
        more = f" and {len(run) - SHOWN} more" if len(run) > SHOWN else ""
        what = "the write" if len(run) == 1 else f"{len(run)} writes"
        self._tell("sdo-missing", key, f"{what} of {', '.join(texts)}{more} {'is' if len(run) == 1 else 'are'} missing in its boot", spot,
                   self._planned_at(key))

    def _tell(self, code, key, text, spot, notes=()):
        self.node.tell(code, [self.node.number, *names(key)], text, spot.time, spot.line, notes)

    def _text(self, key, data):
        return f"{self.judge.plan.entry(self.node.number, key)} := {self._shown(key, data)}"

    def _shown(self, key, data):
        """The value of an entry: a REAL as its number, any other by its bytes."""
        return self.judge.plan.real(self.node.number, key, data) or shown(data)

    # What is written.

    def wrote(self, transfer):
        """A write was sent, whatever became of it."""
        if self.node.first is None:
            return
        if transfer.key == HEARTBEAT_TIME:
            self.node.heartbeat.set_period(0)
        write = transfer.key, transfer.data if transfer.is_whole else None
        spot, self.transfer = Spot(transfer.time, transfer.line), transfer
        if not self.is_planned:
            self._out_of_boot(write, spot)
        elif self.place is None and self.place_of(write, 0) is not None:
            self.place = self.place_of(write, 0) + 1
        elif self.place is None or not self._in_order(write, spot):
            self._out_of_boot(write, spot)
        else:
            self.started = None

    def place_of(self, write, start):
        """The place of a planned write, from a place on."""
        for place in range(start, len(self.writes)):
            if is_same(self.writes[place], write):
                return place
        return None

    def _in_order(self, write, spot):
        """Whether a write is one of the boot, which then goes on behind it."""
        place = self.place
        if place < len(self.writes) and is_same(self.writes[place], write):
            self.place += 1
        elif self._was_skipped(write, spot):
            return True
        elif place < len(self.writes) and self.writes[place][0] == write[0] and not self._comes_next(write):
            self._other_value(place, write, spot)
            self.place += 1
        elif self.place_of(write, place) is not None:
            self.place = self.place_of(write, place) + 1
            self._skip(range(place, self.place - 1), spot)
        else:
            return any(is_same(each, write) for each in self.writes[:place])
        return True

    def _skip(self, places, spot):
        """Writes are passed over; without that of its period the heartbeat may have any."""
        self.skipped.update((each, spot) for each in places)
        if any(self.writes[each][0] == HEARTBEAT_TIME for each in places):
            self.node.heartbeat.set_period(0)

    def _comes_next(self, write):
        """Whether a write is the one behind the next."""
        return self.place + 1 < len(self.writes) and is_same(self.writes[self.place + 1], write)

    def _was_skipped(self, write, spot):
        """Whether a write is one that was passed over: it comes late."""
        for place in self.skipped:
            if is_same(self.writes[place], write):
                before = self.skipped.pop(place)
                late = f"{self._text(*write)} comes late: it is planned before what line {before.line} writes"
                self._tell("sdo-order", write[0], late, spot, self._planned_at(write[0]))
                return True
        return False

    def _other_value(self, place, write, spot):
        self.other.add(place)
        key, data = self.writes[place]
        spot = Spot(spot.time, self.transfer.line_of(first_other(data, write[1])))
        self._tell("sdo-value", key, f"{self._text(*write)}, and {self._shown(key, data)} is planned", spot, self._planned_at(key))

    def _planned_at(self, key):
        """The note that says where a write is planned."""
        where = self.judge.plan.write_place(self.node.number, key)
        return [(where, "planned here")] if where else []

    def _out_of_boot(self, write, spot):
        """A write that isn't the next one of a boot."""
        planned = [place for place, each in enumerate(self.writes) if each[0] == write[0]]
        if any(is_same(self.writes[place], write) for place in planned):
            return
        if planned:
            self._other_value(planned[-1], write, spot)
        else:
            self._tell("sdo-unplanned", write[0], f"{self._text(*write)} isn't planned", spot)

    def confirmed(self, transfer, time, line):
        """A write was confirmed: the node goes by it from then on, at the latest."""
        if transfer.key == HEARTBEAT_TIME and len(transfer.data) == 2:
            period = 1000 * int.from_bytes(transfer.data, "little")
            self.node.heartbeat.begin(period if period == self.node.planned.heartbeat else 0, time, line)
        elif transfer.key[0] in PDO_OBJECTS:
            self.node.rest_pdo(transfer.key[0], time)
        if transfer.key in self.keys:
            self.node.judge.startup.activity(time)

    def was_read(self, transfer, line):
        """A number was read of the node."""
        expected = self.node.planned.identity.get(transfer.key)
        if not expected:
            return
        self.judge.startup.activity(transfer.time)
        number = int.from_bytes(transfer.data, "little")
        if number != expected:
            entry = self.judge.plan.entry(self.node.number, transfer.key)
            self._tell("identity", transfer.key, f"{entry} is {number:08X}h, and {expected:08X}h is planned", Spot(transfer.time, line),
                       [(transfer.line, "the request")])


def first_other(one, other):
    """The place of the first byte that isn't the same."""
    return next((place for place, (here, there) in enumerate(zip(one, other or b"")) if here != there), min(len(one), len(other or b"")))


def is_same(planned, write):
    """Whether a write is a planned one; one of which the bytes aren't known is the one of its entry."""
    return planned[0] == write[0] and (write[1] is None or planned[1] == write[1])


def shown(data):
    """Bytes of a value: a number where they are few."""
    if data is None:
        return "(a block)"
    if 1 <= len(data) <= 8:
        return f"{int.from_bytes(data, 'little'):0{2 * len(data)}X}h"
    text = data[:24].hex(" ").upper() + (" .." if len(data) > 24 else "")
    return text or "nothing"
