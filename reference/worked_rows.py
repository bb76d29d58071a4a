"""The worked rows: scripts with the replies that were worked out for them, in rows/version_2 and rows/version_3.

NAME.txt is the script. NAME.replies.txt has all of its replies. Where only some were worked out, NAME.check.txt has what is known:
`has LINE`, a line that is among them; `last LINE`, the last one; `count N`, how many lines they are."""
import pathlib
from typing import List, NamedTuple, Optional

ROWS = pathlib.Path(__file__).resolve().parent / "rows"
VERSIONS = (2, 3)


class Row(NamedTuple):
    name: str
    script: bytes
    replies: Optional[bytes]   # where all are known
    checks: List[bytes]        # else what is known of them

    def complaint(self, replies):
        """What is wrong with these replies, or None."""
        if self.replies is not None:
            return None if replies == self.replies else first_difference(self.replies, replies)
        missed = [check for check in self.checks if not holds(check, replies.split(b"\n")[:-1])]
        return f"  not met: {missed[0].decode('latin-1')}" if missed else None


def holds(check, lines):
    word, _, rest = check.partition(b" ")
    if word == b"count":
        return len(lines) == int(rest)
    return rest in (lines if word == b"has" else lines[-1:])


def first_difference(expected, given):
    """The first line in which two texts differ."""
    both = expected.split(b"\n"), given.split(b"\n")
    count = max(map(len, both))
    one, other = ([*lines, *[b"(the end)"] * (count - len(lines))] for lines in both)
    place = next((place for place in range(count) if one[place] != other[place]), count - 1)
    return f"  line {place + 1} of the replies\n  expected {one[place][:200]!r}\n  given    {other[place][:200]!r}"


def row_at(path):
    replies, checks = (path.with_name(f"{path.stem}.{kind}.txt") for kind in ("replies", "check"))
    if replies.exists():
        return Row(path.stem, path.read_bytes(), replies.read_bytes(), [])
    return Row(path.stem, path.read_bytes(), None, checks.read_bytes().splitlines())


def rows_of(version):
    """Those of scripts of that version (2: of versions 1 and 2), by name."""
    paths = sorted((ROWS / f"version_{version}").glob("*.txt"))
    return [row_at(path) for path in paths if not path.name.endswith((".replies.txt", ".check.txt"))]
