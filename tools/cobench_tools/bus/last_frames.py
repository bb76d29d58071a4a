"""Draws the last frames of a bus that is watched, for its timeline."""
import threading

from ..conform.overlay import Recorded
from ..conform.plan import Plan
from ..conform.tolerance import Tolerance
from ..logs.intake import Block

MOST_FRAMES = 50_000    # that are drawn: the last ones


class LastFrames(Recorded):
    """Draws the last frames of a bus; `lock` is held while it takes some."""

    def __init__(self, plan: Plan, tolerance: Tolerance) -> None:
        super().__init__(plan, tolerance)
        self.lock = threading.Lock()

    def take(self, block: Block) -> None:
        with self.lock:
            super().take(block)
            while len(self.windows) > 1 and self.count - len(self.windows[0].times) >= MOST_FRAMES:
                self._forget()

    def _forget(self) -> None:
        """The first window goes."""
        count = len(self.windows.pop(0).times)
        self.count, self.left = self.count - count, self.left + count
