"""Which rows of a table a save has changed: those that are new, that were otherwise, and that have gone."""
from collections import Counter

SAYING_WHICH = 4    # columns that say which row it is: in half of them a row stays as it was
MOST_PAIRS = 20_000


def places_without(rows, others):
    """The places of the rows that stand less often among some others."""
    left, found = Counter(others), []
    for place, row in enumerate(rows):
        if left[row]:
            left[row] -= 1
        else:
            found.append(place)
    return found


def likeness(one, other):
    """How like two rows are: by the columns that say which row it is, then by all; nothing where they are too unlike."""
    same = [here == there for here, there in zip(one, other)]
    first = same[:SAYING_WHICH]
    return (sum(first), sum(same)) if 2 * sum(first) >= len(first) and 2 * sum(same) >= len(same) else None


def most_like(row, rows, places):
    """The place of the row that is most like one, None where none is like it."""
    found = [(like, -place) for place in places for like in [likeness(row, rows[place])] if like]
    return -max(found)[1] if found else None


def changed_rows(rows, before):
    """The places of the rows that a save has changed; by place what a row was; and each row that has gone, with the
    number of rows before it.
    """
    now, old = list(map(tuple, rows)), list(map(tuple, before))
    marks, gone, was = places_without(now, old), places_without(old, now), {}
    for place in marks if len(marks) * len(gone) <= MOST_PAIRS else []:
        other = most_like(now[place], old, gone)
        if other is not None:
            was[place] = list(old[other])
            gone.remove(other)
    return marks, was, [[min(place - count, len(now)), list(old[place])] for count, place in enumerate(gone)]
