"""A picture of the worst case of each identifier, as SVG: a bar for what it waits for, by priority."""
from .safe_text import markup

WIDTH, LABELS, ROW, HEAD, FOOT = 1000, 220, 20, 34, 40
MOST_LETTERS = 28
COLOURS = {"lower": "#b9c0c8", "higher": "#7da7d9", "own": "#1f5fa8", "deadline": "#b00020", "seen": "#1c2228",
           "grid": "#dfe3e8", "text": "#1c2228"}
BARS = {"lower": "waits for a frame of lower priority", "higher": "for frames that go before it", "own": "its own frame"}
MARKS = {"deadline": "deadline", "seen": "longest in the trace"}
STEPS = (1, 2, 5)


def box(left, right, top, height, what):
    """A filled rectangle."""
    width = max(right - left, 0.5)
    return f'<rect class="{what}" x="{left:.1f}" y="{top}" width="{width:.1f}" height="{height}" fill="{COLOURS[what]}"/>'


def upright(place, top, bottom, what, width=2):
    """A vertical line."""
    ends = f'x1="{place:.1f}" x2="{place:.1f}" y1="{top}" y2="{bottom}"'
    return f'<line class="{what}" {ends} stroke="{COLOURS[what]}" stroke-width="{width}"/>'


def words(text, place, bottom, what="text", anchor="start"):
    """A text."""
    where = f'x="{place:.1f}" y="{bottom}" text-anchor="{anchor}"'
    return f'<text class="{what}" {where} fill="{COLOURS[what]}">{markup(text)}</text>'


class Axis:
    """Microseconds on the picture, up to the longest that is drawn."""

    def __init__(self, longest):
        self.longest = max(longest, 1)

    def place(self, time):
        return LABELS + (WIDTH - LABELS - 60) * time / self.longest

    def ticks(self):
        """Round times, at most ten."""
        step, power = 1, 1
        while self.longest / step > 10:
            power = power * 10 if step == 5 * power else power
            step = next(each * power for each in STEPS if each * power > step)
        return range(0, int(self.longest) + 1, step)


def bars(load, axis, each, top):
    """The bars of an identifier, its deadline and the longest wait of the trace."""
    response = load.stuffed.of[each]
    if response.wait is None:
        return [words("no bound", LABELS, top + 14, "deadline")]
    blocking, own = 0 if response.earlier else response.blocking, response.wait - load.stuffed.duration(each)
    ends = {"lower": (0, blocking), "higher": (blocking, own), "own": (own, response.wait)}
    parts = [box(axis.place(start), axis.place(end), top + 4, ROW - 8, what) for what, (start, end) in ends.items() if end > start]
    for what, time in (("deadline", load.deadline(each)[0]), ("seen", load.seen[each].longest)):
        if time is not None and time <= axis.longest:
            parts.append(upright(axis.place(time), top + 1, top + ROW - 1, what))
    return parts + [words(f"{response.wait / 1000:.3f}", axis.place(response.wait) + 4, top + 14)]


def legend(top):
    """What the colours mean."""
    parts, left = [], 12
    for what, text in {**BARS, **MARKS}.items():
        parts.append(box(left, left + 12, top, 12, what) if what in BARS else upright(left + 6, top, top + 12, what))
        parts.append(words(text, left + 16, top + 11))
        left += 44 + 7 * len(text)
    return parts


def grid(axis, bottom):
    """Lines at round times, with these above."""
    places = [(axis.place(time), f"{time / 1000:g} ms") for time in axis.ticks()]
    return [part for place, text in places for part in (
        upright(place, HEAD - 6, bottom, "grid", 1), words(text, place, HEAD - 12, anchor="middle"))]


def picture(load):
    """The picture."""
    longest = max((load.stuffed.of[each].wait or 0 for each in load.traffic), default=0)
    axis, bottom = Axis(longest), HEAD + ROW * len(load.traffic)
    parts = grid(axis, bottom)
    for top, each in zip(range(HEAD, bottom, ROW), load.traffic):
        name = each.name if len(each.name) <= MOST_LETTERS else each.name[:MOST_LETTERS - 2] + ".."
        parts.append(words(f"{each.identifier:03X}h {name}", LABELS - 8, top + 14, anchor="end"))
        parts += bars(load, axis, each, top)
    head = (f'<svg xmlns="http://www.w3.org/2000/svg" viewBox="0 0 {WIDTH} {bottom + FOOT}" font-size="12" '
            'font-family="system-ui, sans-serif" role="img" aria-label="Worst case of each identifier">')
    return "\n".join([head, *parts, *legend(bottom + 16), "</svg>"]) + "\n"
