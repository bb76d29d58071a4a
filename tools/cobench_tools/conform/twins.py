"""Signs that two devices of a network have one number."""
from .causes import Spot

# Two boot-up messages within these microseconds are enough, as so many other signs are; the first ones are shown.
SOON, ENOUGH, SHOWN = 1_000_000, 2, 3
LASTS = 10_000_000


class Twins:
    """The signs that two devices have the number of a node."""

    def __init__(self, node):
        self.node, self.signs, self.count = node, [], 0

    def sign(self, what, time, line, weight=1):
        """There is one more."""
        if self.count < ENOUGH and self.signs and time - self.signs[-1][0].time > LASTS:
            self.signs, self.count = [], 0
        was, self.count = self.count, self.count + weight
        if len(self.signs) < SHOWN:
            self.signs.append((Spot(time, line), what))
        if was < ENOUGH <= self.count:
            for spot, words in self.signs:
                self._tell(words, spot)
        elif was >= ENOUGH:
            self._tell(what, Spot(time, line))

    def _tell(self, what, spot):
        notes = [(each.line, words) for each, words in self.signs if each != spot]
        self.node.tell("two-devices", [self.node.number], f"two devices seem to have its number: {what}", spot.time, spot.line, notes)

