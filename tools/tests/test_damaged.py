"""Damaged files through each reader, by the seed of the day: 2,000 cases each, in parts that run beside each other."""
import damaged
import good_files

PARTS = 4


def check(name, part):
    """The cases of a part of a reader."""
    count = damaged.CASES // PARTS
    wrong = damaged.wrong_cases(name, damaged.seed_of_the_day(), part * count, count)
    assert not wrong, "\n".join(wrong[:5])


def test_each_reader_has_its_files():
    assert tuple(damaged.readers()) == good_files.NAMES


def test_what_a_case_is_judged_by():
    """Each kind of wrong end is seen."""
    assert damaged.odd_end(0, b"x", b"") is None and damaged.odd_end(2, b"", b"cobtool: no\n") is None
    for status, output, faults, says in ((3, b"", b"", "status 3"), (2, b"x", b"cobtool: no\n", "status 2 with 1 bytes"),
                                         (2, b"", b"", "0 lines"), (2, b"", b"cobtool: one\ntwo\n", "2 lines"),
                                         (2, b"", b"cobtool: a fault of cobtool itself, please\n", "cobtool itself"),
                                         (1, b"", b"x\x1b[2J\n", "is shown"), (1, b"", "x\u202e\n".encode(), "is shown")):
        assert says in (damaged.odd_end(status, output, faults) or ""), (status, faults)
    assert "KeyError" in damaged.why_wrong(lambda: {}["x"])
    before, damaged.MOST_SECONDS = damaged.MOST_SECONDS, 0.1
    try:
        assert damaged.why_wrong(lambda: [None for _ in iter(int, 1)]) == "over 0.1 s"
    finally:
        damaged.MOST_SECONDS = before


def make(name, part):
    return lambda: check(name, part)


for each in good_files.NAMES:
    for number in range(PARTS):
        globals()[f"test_damaged_{each}_{number + 1}_of_{PARTS}"] = make(each, number)
