"""When something that comes by itself rests in the planned run: what stays away then isn't reported of a log."""

NO_END = 1 << 62


class Rests:
    """When what comes at some times of a run stays away for longer than it may.

    spans  from and to of each rest, the last one perhaps without an end
    begin  when the run begins
    """

    def __init__(self, times, begin, end, longest):
        points = [begin, *times]
        self.begin, self.longest = begin, longest
        self.spans = [(here, there) for here, there in zip(points, times) if there - here > longest]
        if end - points[-1] > longest:
            self.spans.append((points[-1], NO_END))

    def overdue(self, since, until, alignment):
        """When what stays away in a log from a time to another is overdue, but for these rests; None for never."""
        if alignment.is_lost() or not self.spans:
            return since + self.longest
        if alignment.is_known():
            return self._behind(since, alignment)
        return since + self.longest if until - since > self._widest() + self.longest else None

    def _behind(self, since, alignment):
        """The same where it is known where the log lies on the planned run."""
        begin, reach = since - alignment.offset, alignment.reach(since)
        for start, end in self.spans:
            if start - reach <= begin + self.longest and begin <= end + reach:
                begin = max(begin, end)
        return None if begin >= NO_END else begin + alignment.offset + self.longest

    def _widest(self):
        """How long a rest may be where nobody knows which one it is; that before a first frame is a start."""
        return max((end - start for start, end in self.spans if start != self.begin or end == NO_END), default=0)
