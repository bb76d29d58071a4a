"""Where a log lies on the planned run: by its first boot-up message or command, else by its first SYNC."""

SLACK = 2_000


class Alignment:
    """Where a log lies on the planned run.

    landmarks  the times of each boot-up message and command in the planned run, by its key and bytes
    offsets    what may have to be taken from a time of the log to have that of the run
    also       the same by power-on
    sync       the same by the first SYNC, None where there is none
    may_jump   whether the times of the log may have jumped since the last landmark
    """

    def __init__(self, landmarks, tolerance):
        self.landmarks, self.tolerance = landmarks, tolerance
        self.offsets, self.sync, self.is_taken, self.anchor, self.may_jump = [], None, False, None, False
        self.also = []

    def is_known(self):
        """Whether a boot-up message or a command said where the log lies."""
        return self.is_taken

    def is_lost(self):
        """Whether the log lies nowhere on the planned run."""
        return self.is_taken and not self.offsets

    @property
    def offset(self):
        """What has to be taken from a time of the log to have that of the run, None where that isn't known."""
        return self.offsets[0] if self.offsets else self.sync

    def take_sync(self, time, planned):
        """The first SYNC of the log."""
        if self.sync is None and planned is not None:
            self.sync = time - planned

    def take(self, key, data, time, since, power_on=None):
        """Takes a landmark; whether it is the first one that the planned run has too.

        `since` is when a node was heard first; where the machine was switched on with the begin of the log, that is `power_on`:
        where its first node isn't there, the others boot earlier than planned, but the scenario goes by its own time.
        """
        possible = [time - planned for planned in self.landmarks.get((key, data), ())]
        if not possible:
            return False
        if not self.is_taken:
            elapsed = time - since - SLACK
            self.offsets = [offset for offset in possible if time - offset >= elapsed]
            self.is_taken, self.anchor = True, time
            self.also = [power_on - min(min(times) for times in self.landmarks.values())] if power_on is not None else []
            return True
        agreeing = [offset for offset in self.offsets if any(self.is_near(offset, other, time) for other in possible)]
        self.offsets = agreeing or self.offsets + possible[:1] * self.may_jump
        self.may_jump = False
        return False

    def is_near(self, one, other, time):
        """Whether two times are the same, as far as can be said at a time of the log."""
        return abs(one - other) <= self.reach(time)

    def reach(self, time):
        away = abs(time - (self.anchor if self.anchor is not None else time))
        return SLACK + 2 * self.tolerance.jitter + away * self.tolerance.clock // 1_000_000

    def has(self, planned, time):
        """Whether one of these times of the planned run is that of the log."""
        reach = self.reach(time)
        return any(abs(time - offset - each) <= reach for offset in self.offsets + self.also for each in planned)
