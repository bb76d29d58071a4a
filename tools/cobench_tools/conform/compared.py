"""Which frames of a recorded run the planned one doesn't have at that time, and the other way round."""

REACH = 10_000      # microseconds by which the two frames of a pair may be apart


def mark_others(windows, sorts, planned):
    """Gives each window of a timeline the places of its frames that the other run doesn't have, as `other`.

    planned  what the keys of planned lanes have above those of recorded ones
    """
    ours, theirs = frames_of_both(windows, sorts, planned)
    for window in windows:
        window["other"] = []
    if not theirs:
        return
    begin, end = ends_of(ours)
    first, last = ends_of(theirs)
    for identifier in {*ours, *theirs}:
        recorded = [each for each in ours.get(identifier, []) if first - REACH <= each[0] <= last + REACH]
        expected = [each for each in theirs.get(identifier, []) if begin - REACH <= each[0] <= end + REACH]
        for _, window, place in without_partner(recorded, expected):
            window["other"].append(place)
    for window in windows:
        window["other"].sort()


def frames_of_both(windows, sorts, planned):
    """The frames of the network that were recorded, and those that are planned, by identifier: time, window and place each."""
    ours, theirs = {}, {}
    for window in windows:
        time = window["at"]
        for place, (gap, sort) in enumerate(zip(window["time"], window["sort"])):
            time += gap
            identifier, lane, is_foreign = sorts[sort][0], sorts[sort][2], bool(sorts[sort][5:])
            if not is_foreign:
                (theirs if lane >= planned or window is windows[-1] else ours).setdefault(identifier, []).append((time, window, place))
    return ours, theirs


def ends_of(frames):
    """The times of the first and the last of the frames of all identifiers."""
    times = [time for of_one in frames.values() for time, _, _ in of_one]
    return min(times, default=0), max(times, default=0)


def without_partner(ours, theirs):
    """The frames of an identifier in two runs that can't be put into pairs, each the next one of the other."""
    one = other = 0
    while one < len(ours) and other < len(theirs):
        apart = ours[one][0] - theirs[other][0]
        if abs(apart) <= REACH:
            one, other = one + 1, other + 1
        elif apart < 0:
            yield ours[one]
            one += 1
        else:
            yield theirs[other]
            other += 1
    yield from ours[one:]
    yield from theirs[other:]
