"""A bar on the terminal that shows how much of a log was read."""
import sys
import time

WIDTH = 30
STEP = 0.2


class Progress:
    """Shows how far a log was read, where the standard error is a terminal and it takes a while."""

    def __init__(self, log):
        self.log, self.began, self.shown, self.is_drawn = log, time.monotonic(), time.monotonic(), False
        self.is_wanted = sys.stderr is not None and sys.stderr.isatty()

    def step(self):
        """Some of the log was read."""
        now = time.monotonic()
        if self.is_wanted and now - self.shown > STEP:
            self.shown, self.is_drawn = now, True
            self._write("\r" + self._line(now - self.began))

    def _line(self, seconds):
        frames = f"{self.log.frames:,} frames, {self.log.frames / seconds:,.0f} a second"
        if not self.log.size:
            return frames
        share = min(self.log.position() / self.log.size, 1)
        bar = "#" * int(share * WIDTH)
        return f"[{bar:{WIDTH}}] {100 * share:3.0f} %  {frames}"

    def end(self):
        """The bar goes."""
        if self.is_drawn:
            self._write("\r\x1b[K")

    @staticmethod
    def _write(text):
        try:
            sys.stderr.write(text)
            sys.stderr.flush()
        except OSError:
            pass
