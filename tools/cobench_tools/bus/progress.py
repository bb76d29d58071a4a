"""Says on a terminal how much of something is done, where it takes a while."""
import sys
import time
from typing import Optional

FIRST, EACH = 0.5, 0.1      # seconds


class Progress:
    """Counts what is done, of so many of a kind; None where it isn't known of how many."""

    def __init__(self, count: Optional[int], kind: str) -> None:
        self.count, self.kind, self.done, self.is_drawn = count, kind, 0, False
        self.due = time.monotonic() + FIRST
        self.is_wanted = sys.stderr is not None and sys.stderr.isatty()

    def step(self, more: int = 1) -> None:
        """So many more are done."""
        self.done += more
        if self.is_wanted and time.monotonic() >= self.due:
            self.due, self.is_drawn = time.monotonic() + EACH, True
            of_all = f" of {self.count:,}" if self.count is not None else ""
            sys.stderr.write(f"\r{self.done:,}{of_all} {self.kind}\x1b[K")
            sys.stderr.flush()

    def __enter__(self) -> "Progress":
        return self

    def __exit__(self, *_: object) -> None:
        """The line goes."""
        if self.is_drawn:
            sys.stderr.write("\r\x1b[K")
            sys.stderr.flush()
