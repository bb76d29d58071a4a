"""Recordings of planned runs with a fault planted: each kind by a name, at a random place, and where it has to be told.

A recording is a list of frames, [time, identifier, bytes], each of which is a line of a log of candump. A fault of a kind
gives the frames with it, the code of what has to be told, and the line; or None where the recording has no place for it.
"""
import boot_faults
from recording import Recording

BEHIND = 20_000     # microseconds that a recording has to go on behind a fault at which something stays away


def heartbeat_dropped(recording):
    """The middle one of three heartbeats isn't there."""
    triples = []
    for node in recording.plan.nodes:
        beats = [place for place in recording.of(0x700 + node)]
        for before, middle, behind in zip(beats, beats[1:], beats[2:]):
            if all(recording.frames[each][2] != b"\0" for each in (before, middle, behind)):
                triples.append((middle, behind))
    triples = [each for each in triples if recording.calm(each) == list(each)]
    if not triples:
        return None
    middle, behind = recording.dice.one(triples)
    return recording.without(middle), ("heartbeat-late", "heartbeat-missed"), behind


def heartbeat_state(recording):
    """A heartbeat tells that the node is stopped."""
    places = recording.places(lambda time, identifier, data: identifier - 0x700 in recording.plan.nodes and data in (b"\5", b"\x7f"))
    place = recording.pick(recording.calm(places))
    return None if place is None else (recording.changed(place, b"\4"), "state", place + 1)


def bytes_swapped(recording):
    """Two bytes of a PDO are swapped."""
    places = [place for place in recording.pdos() if len(set(recording.frames[place][2])) > 1]
    place = recording.pick(places)
    if place is None:
        return None
    data = bytearray(recording.frames[place][2])
    pairs = [(one, other) for one in range(len(data)) for other in range(one) if data[one] != data[other]]
    one, other = recording.dice.one(pairs)
    data[one], data[other] = data[other], data[one]
    return recording.changed(place, data), ("pdo-swapped", "pdo-limit"), place + 1


def value_beyond_limit(recording):
    """A value of a PDO is beyond a limit of a data sheet."""
    found = []
    for place in recording.pdos():
        tpdo = recording.tpdos[recording.frames[place][1]]
        found += [(place, part) for part in tpdo.parts if part.entry and part.entry.high == "0x60" and part.bits in (8, 16)]
    if not found:
        return None
    place, part = recording.dice.one(found)
    data = recording.frames[place][2]
    number = int.from_bytes(data, "little")
    number = number & ~((1 << part.bits) - 1 << part.start) | 0x61 + recording.dice.below(30) << part.start
    return recording.changed(place, number.to_bytes(len(data), "little")), "pdo-limit", place + 1


def pdo_off_by_one(recording):
    """The identifier of a PDO is one more or less, such that no PDO of the plan has it."""
    every = {tpdo.identifier for tpdo in recording.plan.wiring.tpdos}
    found = [(place, recording.frames[place][1] + step) for place in recording.pdos() for step in (-1, 1)]
    found = [(place, identifier) for place, identifier in found if identifier not in every and 0x181 <= identifier <= 0x57F]
    found = [(place, identifier) for place, identifier in found if recording.frames[place][0] < recording.end - BEHIND]
    if not found:
        return None
    place, identifier = recording.dice.one(found)
    return recording.changed(place, identifier=identifier), "pdo-unplanned", place + 1


def pdo_length(recording):
    """A PDO has a byte more, or one less."""
    place = recording.pick(recording.pdos())
    if place is None:
        return None
    data = recording.frames[place][2]
    longer = len(data) < 8 and (len(data) == 1 or recording.dice.often(0.5))
    if len(data) < 2 and not longer:
        return None
    return recording.changed(place, data + b"\0" if longer else data[:-1]), "pdo-length", place + 1


def pdo_within_inhibit(recording):
    """A PDO comes once more before its inhibit time is over."""
    places = [place for place in recording.pdos(lambda tpdo: tpdo.kind in (254, 255) and tpdo.inhibit >= 20)
              if recording.has_gap_before(place)]
    place = recording.pick(recording.calm(places))
    if place is None:
        return None
    time, identifier, data = recording.frames[place]
    planted = recording.inserted(time + 20 * recording.tpdos[identifier].inhibit, (identifier, data))
    if not planted or planted[0][planted[1] - 1][0] > time + 40 * recording.tpdos[identifier].inhibit:
        return None
    frames, line = planted
    later = next((frame for frame in frames[line:] if frame[1] == identifier), None)
    soon = later and later[0] - frames[line - 1][0] < 100 * recording.tpdos[identifier].inhibit
    if soon and recording.tpdos[identifier].event:
        return None
    if soon:
        frames.remove(later)
    return frames, "pdo-inhibit", line


def pdo_event_missed(recording):
    """A PDO with an event time stays away once."""
    pairs = []
    for identifier, tpdo in recording.tpdos.items():
        if tpdo.kind in (254, 255) and tpdo.event:
            places = recording.of(identifier)
            pairs += [(middle, behind) for before, middle, behind in zip(places, places[1:], places[2:])
                      if recording.frames[behind][0] - recording.frames[before][0] > 1500 * tpdo.event
                      and not any(before < boot < behind for boot in recording.of(0x700 + tpdo.node) if recording.frames[boot][2] == b"\0")]
    if not pairs:
        return None
    middle, behind = recording.dice.one(pairs)
    return recording.without(middle), "pdo-event", behind


def sync_before(recording, place):
    """The place of the last SYNC before a frame."""
    return recording.before(0x80, place)


def sync_behind(recording, place):
    return recording.behind(0x80, place)


def calm_pdos(recording):
    """The places of PDOs that come at each SYNC, alone between the two SYNCs round them, with others of theirs round these."""
    found = []
    for identifier, tpdo in recording.tpdos.items():
        places = recording.of(identifier) if tpdo.kind == 1 else []
        for before, place, behind in zip(places, places[1:], places[2:]):
            first, second = sync_before(recording, place), sync_behind(recording, place)
            if first is None or second is None or not before < first < place < second < behind:
                continue
            if sync_before(recording, before) == first or sync_behind(recording, second + 1) in (None,):
                continue
            if behind < sync_behind(recording, second + 1):
                found.append(place)
    return recording.calm(found)


def pdo_missing(recording):
    """A PDO that comes at each SYNC stays away at one."""
    place = recording.pick(calm_pdos(recording))
    return None if place is None else (recording.without(place), "pdo-missing", sync_before(recording, place) + 1)


def pdo_extra(recording):
    """A PDO that comes at each SYNC comes twice at one."""
    places = []
    for place in calm_pdos(recording):
        second = sync_behind(recording, place)
        room = recording.frames[second][0] - recording.plan.sync // 8 - 1500 - recording.frames[place][0]
        places += [(place, room)] if room > 100 else []
    if not places:
        return None
    place, room = recording.dice.one(places)
    time, identifier, data = recording.frames[place]
    planted = recording.inserted(time + recording.dice.below(room), (identifier, data))
    if not planted or planted[0][planted[1] - 1][0] > time + room:
        return None
    return planted[0], "pdo-extra", planted[1]


def pdo_late(recording):
    """A PDO comes later behind SYNC than the window allows that all others keep to; which is given too."""
    found = []
    delays = [recording.frames[place][0] - recording.frames[sync_before(recording, place)][0]
              for place in recording.pdos(lambda tpdo: tpdo.kind is not None and tpdo.kind <= 240)
              if sync_before(recording, place) is not None]
    window = max(delays, default=0) + 100
    for place in calm_pdos(recording):
        first, second = sync_before(recording, place), sync_behind(recording, place)
        latest = recording.frames[second][0] - recording.plan.sync // 8 - 1200
        wanted = recording.frames[first][0] + window + max(window // 4, 250) + 1000
        found += [(place, wanted)] if wanted < latest else []
    if not found or window < 100:
        return None
    place, wanted = recording.dice.one(found)
    _, identifier, data = recording.frames[place]
    recording = Recording(recording.plan, recording.without(place), recording.dice)
    planted = recording.inserted(wanted, (identifier, data))
    if not planted or recording.frames[sync_behind(recording, planted[1] - 1)][0] - wanted < 1200:
        return None
    return planted[0], "pdo-window", planted[1], window


def calm_syncs(recording, margin=3):
    """The places of SYNCs that have others round them."""
    places = recording.of(0x80)
    return recording.calm(places[margin:-margin])


def sync_doubled(recording):
    """A SYNC comes twice."""
    place = recording.pick(calm_syncs(recording))
    if place is None:
        return None
    time, _, data = recording.frames[place]
    planted = recording.inserted(time + recording.dice.below(recording.plan.sync // 4), (0x80, data))
    if not planted or planted[0][planted[1] - 1][0] > time + 0.4 * recording.plan.sync:
        return None
    return planted[0], "sync-extra", planted[1]


def sync_dropped(recording):
    """A SYNC stays away."""
    place = recording.pick(calm_syncs(recording))
    return None if place is None else (recording.without(place), "sync-missing", sync_behind(recording, place + 1))


def sync_late(recording):
    """A SYNC is late, and its PDOs, which are all that comes up to the next one."""
    shift, found = recording.plan.sync // 3, []
    for place in calm_syncs(recording):
        behind = sync_behind(recording, place + 1)
        cycle = recording.frames[place:behind]
        of_sync = all(identifier == 0x80 or identifier in recording.tpdos and recording.tpdos[identifier].kind in range(241)
                      for _, identifier, _ in cycle)
        if of_sync and cycle[-1][0] + shift < recording.frames[behind][0]:
            found.append((place, behind))
    least = 2 * min(500, recording.plan.sync // 8) + 130 * recording.plan.bit + 100
    if not found or shift < least:
        return None
    place, behind = recording.dice.one(found)
    frames = [[time + (shift if place <= at < behind else 0), identifier, data]
              for at, (time, identifier, data) in enumerate(recording.frames)]
    return frames, "sync-period", place + 1


def sync_counter(recording):
    """A SYNC has another counter."""
    place = recording.pick(calm_syncs(recording))
    if place is None or not recording.plan.counter:
        return None
    counter, modulus = recording.frames[place][2][0], recording.plan.counter
    other = (counter + recording.dice.below(modulus - 1)) % modulus + 1
    return recording.changed(place, [other]), "sync-counter", place + 1


KINDS = {each.__name__: each for each in (
    heartbeat_dropped, heartbeat_state, bytes_swapped, value_beyond_limit, pdo_off_by_one, pdo_length, pdo_within_inhibit,
    pdo_event_missed, pdo_missing, pdo_extra, pdo_late, sync_doubled, sync_dropped, sync_late, sync_counter) + boot_faults.ALL}


def drifted(frames, dice, ppm, jitter):
    """The frames by a clock that is off, each time off by up to a jitter."""
    found, last = [], 0
    for time, identifier, data in frames:
        time += time * ppm // 1_000_000 + dice.below(2 * jitter + 1)
        last = max(time, last)
        found.append([last, identifier, data])
    return found
