"""How far the times of a log may be off."""
JITTER, CLOCK = 500, 200
SHARE_OF_PERIOD = 8

# Microseconds after which nothing comes in any log.
NEVER = 1 << 62


class Tolerance:
    """How far times may be off: by `jitter` microseconds each, and by `clock` parts of a million of what is measured.

    Where the user doesn't say the jitter, it is at most an eighth of the period that is judged.
    """

    def __init__(self, jitter=None, clock=None):
        self.given = jitter
        self.clock = CLOCK if clock is None else clock
        self.coarse = 0

    @property
    def jitter(self):
        """How far a single time may be off."""
        return (JITTER if self.given is None else self.given) + self.coarse

    def of(self, period):
        """How far the time from one frame to another may be off, where it is to be so long."""
        jitter = JITTER if self.given is None else self.given
        if self.given is None:
            jitter = min(jitter, period // SHARE_OF_PERIOD)
        return 2 * (jitter + self.coarse) + period * self.clock // 1_000_000 + 1

    def words(self):
        share = ", for short periods an eighth of them" if self.given is None else ""
        return f"each time may be off by {self.jitter} us{share}, clocks by {self.clock} ppm"
