"""Faults that are planted in the boots of a recording, and in the nodes that are there; see log_faults.py."""
from recording import DOWNLOADS

PDO_MAPPINGS = list(range(0x1600, 0x1800)) + list(range(0x1A00, 0x1C00))
START_OVER = 110_000    # microseconds behind the last boot after which the start of a machine is over for sure
BEHIND = 20_000     # microseconds that a recording has to go on behind a fault at which something stays away


def mapping_changed(recording):
    """A write of a mapping has another value."""
    return write_changed(recording, lambda index, sub: index in PDO_MAPPINGS)


def write_changed(recording, fits=lambda index, sub: index not in PDO_MAPPINGS):
    """A write has another value."""
    pair = recording.pick(recording.requests(fits))
    if not pair:
        return None
    data = bytearray(recording.frames[pair[0]][2])
    size = 4 - (data[0] >> 2 & 3)
    data[4 + recording.dice.below(size)] ^= 1 << recording.dice.below(8)
    return recording.changed(pair[0], data), "sdo-value", pair[0] + 1


def segment_changed(recording):
    """A write in segments has another byte in one of them."""
    found = []
    for place, (_, identifier, data) in enumerate(recording.frames):
        if 0x600 < identifier < 0x680 and data[0] < 0x20 and (data[0] >> 1 & 7) < 7:
            found.append(place)
    place = recording.pick(found)
    if place is None:
        return None
    data = bytearray(recording.frames[place][2])
    data[1 + recording.dice.below(7 - (data[0] >> 1 & 7))] ^= 0x20
    return recording.changed(place, data), "sdo-value", place + 1


def write_dropped(recording):
    """A write isn't there, nor its answer."""
    pairs = [pair for pair in recording.requests(lambda index, sub: True) if recording.next_request(pair[0])]
    pairs = [pair for pair in pairs if not repeats(recording, pair[0]) and is_write(recording.frames[recording.next_request(pair[0])][2])]
    pair = recording.pick(pairs)
    if not pair:
        return None
    return recording.filled(lambda place, frame: place in pair), "sdo-missing", recording.next_request(pair[0]) + 1


def is_write(data):
    return data[0] in DOWNLOADS or data[0] == 0x21


def repeats(recording, place):
    """Whether the next request is the same write."""
    behind = recording.next_request(place)
    return behind is not None and recording.frames[behind][2] == recording.frames[place][2]


def writes_swapped(recording):
    """A write comes before the one that is planned before it."""
    found = []
    pairs = dict(recording.requests(lambda index, sub: True))
    for place, answer in pairs.items():
        behind = recording.next_request(place)
        if behind in pairs and behind > answer and recording.frames[place][2][1:4] != recording.frames[behind][2][1:4]:
            found.append((place, answer, behind, pairs[behind]))
    if not found:
        return None
    one, its, other, theirs = recording.dice.one(found)
    frames = [list(frame) for frame in recording.frames]
    for here, there in ((one, other), (its, theirs)):
        frames[here][2], frames[there][2] = frames[there][2], frames[here][2]
    return frames, "sdo-order", other + 1


def write_aborted(recording):
    """A write is aborted by the node."""
    pair = recording.pick(recording.requests(lambda index, sub: True))
    if not pair:
        return None
    code = recording.dice.one([0x06010002, 0x06020000, 0x06090031, 0x08000022])
    data = b"\x80" + recording.frames[pair[0]][2][1:4] + code.to_bytes(4, "little")
    return recording.changed(pair[1], data), "sdo-abort", pair[1] + 1


def write_inserted(recording):
    """A write that nobody planned comes between two others."""
    pair = recording.pick(recording.requests(lambda index, sub: True))
    if not pair:
        return None
    node = recording.frames[pair[0]][1] - 0x600
    key = (0x5F00 + recording.dice.below(0x80)).to_bytes(2, "little") + b"\1"
    frames, place = recording.frames, pair[1] + 1
    time = frames[pair[1]][0]
    fresh = [[time, 0x600 + node, b"\x2b" + key + b"\x05\0\0\0"], [time, 0x580 + node, b"\x60" + key + bytes(4)]]
    took = 222 * recording.plan.bit
    later = [[at + took, identifier, data] for at, identifier, data in frames[place:]]
    if took > min(900, 2 * (recording.plan.sync // 8 or 500)):
        return None
    fresh[0][0], fresh[1][0] = time + took // 2, time + took
    return frames[:place] + fresh + later, "sdo-unplanned", place + 1


def answer_dropped(recording):
    """A write has no answer."""
    pairs = [pair for pair in recording.requests(lambda index, sub: True) if recording.next_request(pair[0])]
    pair = recording.pick(pairs)
    return (recording.without(pair[1]), "sdo-unanswered", pair[0] + 1) if pair else None


def identity_differs(recording):
    """What is read of the identity is another number."""
    place = recording.pick(recording.places(lambda time, identifier, data: 0x580 < identifier < 0x600 and data[0] == 0x43
                                            and int.from_bytes(data[1:3], "little") in (0x1000, 0x1018)))
    if place is None:
        return None
    data = bytearray(recording.frames[place][2])
    data[4 + recording.dice.below(4)] ^= 1 << recording.dice.below(8)
    return recording.changed(place, data), "identity", place + 1


def boots_twice(recording):
    """A node boots again, or another device does that has its number: what comes of it goes on."""
    nodes = [node for node in recording.plan.nodes if recording.of(0x700 + node)]
    if not nodes:
        return None
    node = recording.dice.one(nodes)
    first = recording.frames[recording.of(0x700 + node)[0]][0]
    planted = recording.inserted(first + 1 + recording.dice.below(recording.end - first), (0x700 + node, b"\0"))
    return planted and (planted[0], ("boots-again", "two-devices"), planted[1])


def never_boots(recording):
    """Nothing of a node is there, in a recording that goes on behind the boots of all.

    The one that boots first may have done so before the recording: its heartbeat has to be late there.
    """
    boots = recording.places(lambda time, identifier, data: 0x580 < identifier < 0x680 or identifier > 0x700 and data == b"\0")
    rest = recording.end - recording.frames[boots[-1]][0] if boots else 0
    if rest < START_OVER:
        return None
    nodes = [node for node in recording.plan.project.booted if recording.of(0x700 + node)]
    if len(nodes) < 2:
        return None
    node = recording.dice.one(nodes)
    period = recording.plan.nodes[node].heartbeat
    if node == min(nodes, key=lambda each: recording.of(0x700 + each)[0]) and not 0 < 2 * period < rest:
        return None
    own = {0x700 + node, 0x580 + node, 0x80 + node} | {tpdo.identifier for tpdo in recording.plan.wiring.tpdos if tpdo.node == node}
    return recording.filled(lambda place, frame: frame[1] in own), "never-seen", None


def stranger(recording):
    """A node boots that nobody planned."""
    free = [node for node in range(1, 127) if node not in recording.plan.nodes and node != recording.plan.manager]
    planted = recording.inserted(recording.frames[0][0] + recording.dice.below(recording.end), (0x700 + recording.dice.one(free), b"\0"))
    return planted and (planted[0], "unplanned-node", planted[1])


def emergency(recording):
    """A node has an emergency."""
    nodes = [node for node in recording.plan.nodes if recording.of(0x700 + node)]
    if not nodes:
        return None
    node = recording.dice.one(nodes)
    first = recording.frames[recording.of(0x700 + node)[0]][0]
    code = recording.dice.one([0x1000, 0x2310, 0x4210, 0x5441, 0x8130, 0x8611])
    planted = recording.inserted(first + 1 + recording.dice.below(recording.end - first),
                                 (0x80 + node, code.to_bytes(2, "little") + b"\x01" + bytes(5)))
    return planted and (planted[0], "emcy", planted[1])


def goes_silent(recording):
    """A node is heard no more."""
    found = []
    for node in recording.plan.project.booted:
        cyclic = [identifier for identifier, tpdo in recording.tpdos.items() if tpdo.node == node and tpdo.kind == 1]
        beats, period = recording.of(0x700 + node), recording.plan.nodes[node].heartbeat
        if cyclic and period and len(beats) > 2 and recording.of(cyclic[0]):
            start, latest = recording.frames[recording.of(cyclic[0])[0]][0], recording.end - 2 * max(period, recording.plan.sync) - BEHIND
            own = {0x700 + node, 0x580 + node, 0x80 + node} | {tpdo.identifier for tpdo in recording.plan.wiring.tpdos if tpdo.node == node}
            found += [(own, start, latest)] if latest > start and start > recording.frames[beats[1]][0] else []
    if not found:
        return None
    if not found:
        return None
    own, start, latest = recording.dice.one(found)
    time = start + 1 + recording.dice.below(latest - start)
    frames = recording.filled(lambda place, frame: frame[1] in own and frame[0] > time)
    last = max(place for place, frame in enumerate(frames) if frame[1] in own)
    return frames, "silent", last + 1


ALL = (mapping_changed, write_changed, segment_changed, write_dropped, writes_swapped, write_aborted, write_inserted, answer_dropped,
       identity_differs, boots_twice, never_boots, stranger, emergency, goes_silent)
