"""Draws the windows of a run by the texts of their frames, so that a line that was there before needn't be read again.

A window in which no line tells more than itself goes to the page as it stands in the trace, with the sort of each different
frame (`of`): by its identifier and size, as `185 [8]`, or by its whole text where another frame of these is of another sort.
"""
from typing import Dict

from ..bundle import Ready, content_text
from ..picture import Drawing, Window
from ..trace import Frame, frame_behind, trace_of

TIME = 11               # the digits of a line's time, and the blank behind them
HEAD = 7                # identifier and size in the text behind them
MOST_TEXTS = 100_000    # so many texts are known at most


def tells_more(identifier, data):
    """Whether a frame may tell more than itself: an emergency, SDO, or a boot-up message."""
    if len(data) == 8:
        return 0x81 <= identifier <= 0xFF or 0x581 <= identifier <= 0x67F
    return 0x701 <= identifier <= 0x77F and data == b"\0"


class Frames:
    """Different frames that tell no more than themselves, by their texts.

    identifiers  theirs
    changes      of the texts of those that change the states of nodes, what they change
    of           the sort of each, as JSON
    """

    def __init__(self, known):
        self.identifiers = {int(text[:3], 16) for text in known}
        self.changes = {text: change for text, (_, change) in known.items() if change}
        of = {}
        for text, (place, _) in known.items():
            if of.setdefault(text[:HEAD], place) != place:
                of[text] = place
        self.of = "{" + ",".join([f'"{text.decode()}":{place}' for text, place in of.items()]) + "}"


class Plain:
    """A window in which no line tells more than itself; what it has is that of a Window."""

    flags, boots, noted = (), (), ()
    said: Dict[int, str] = {}

    def __init__(self, at, text, frames, changes):
        self.at, self._text, self._frames, self.changes = at, text, frames, changes

    def identifiers(self, sorts):
        return self._frames.identifiers

    def content(self):
        """What goes to the page, as JSON."""
        lines = content_text(self._text[:-1].decode("ascii", "replace"))
        return Ready(f'{{"at":{self.at},"lines":{lines},"of":{self._frames.of}}}')


class TextDrawing(Drawing):
    """Draws windows by their texts."""

    def __init__(self, network, sorts):
        super().__init__(network, sorts)
        self._texts, self._texts_of = {}, {}

    def window_of(self, at, text):
        """The window of the next lines, which stand in a text."""
        lines = text.split(b"\n")[:-1]
        texts = [line[TIME:] for line in lines]
        frames = self.frames(set(texts))
        if not frames:
            return self.window(at, trace_of(lines))
        changes = [(int(line[:TIME - 1]),) + frames.changes[each] for line, each in zip(lines, texts) if each in frames.changes]
        return Plain(at, text, frames, changes)

    def frames(self, texts):
        """The frames of these texts, None where one tells more than itself."""
        if self.network.touched or len(self._texts) > MOST_TEXTS:
            self.forget()
        if all([self.learn(each) for each in texts.difference(self._texts)]):
            return Frames({each: self._texts[each] for each in texts})
        return None

    def forget(self):
        for identifier in self.network.touched if len(self._texts) <= MOST_TEXTS else list(self._texts_of):
            for text in self._texts_of.pop(identifier, ()):
                del self._texts[text]
        super().forget()

    def learn(self, text):
        """Learns what a frame with this text is; gives whether that is all that it tells."""
        frame = frame_behind(text)
        if not frame or tells_more(*frame):
            return False
        self._texts[text] = self.known(*frame) or self.recognise(Window(0), Frame(0, *frame))
        self._texts_of.setdefault(frame[0], []).append(text)
        return True
