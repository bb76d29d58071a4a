"""Worked rows, mixed and changed."""
from worked_rows import rows_of

from .texts import NUMBERS
from .words import WORDS

LINES = {2: [b"dcf 5", b"diag", b"project", b"cdcf 5", b"version 2", b"need 5 mandatory", b"event 9 700 nmt 130 5"],
         3: [b"dcf 5", b"diag", b"project", b"cdcf 6", b"trace", b"version 2", b"version 3", b"receive m 6 0 20", b"receive m 6 2 0",
             b"unreceive m 6", b"time-period 1000 5", b"time-period 0 0", b"need 6 mandatory", b"event 9 700 nmt 130 5"]}


def script(r, version=2):
    """Two of the worked rows of a version, one behind the other, with some lines changed, added or exchanged."""
    rows = [row.script for row in rows_of(version) if len(row.script) < 4000]
    lines = b"".join(r.sample(rows, 2)).split(b"\n")
    for _ in range(r.randrange(1, 8)):
        place, way = r.randrange(len(lines)), r.randrange(4)
        if way == 0:
            lines[place] = r.choice(WORDS + NUMBERS)
        elif way == 1:
            lines.insert(place, r.choice(LINES[version]))
        elif way == 2 and lines[place]:
            words = lines[place].split(b" ")
            words[r.randrange(len(words))] = r.choice(WORDS + NUMBERS)
            lines[place] = b" ".join(words)
        else:
            other = r.randrange(len(lines))
            lines[place], lines[other] = lines[other], lines[place]
    return b"\n".join(lines)
