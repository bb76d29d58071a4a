"""`stats`: counts, periods, waits, boots and SYNC, beside what is counted by hand or in another way."""
import csv
import io
import re

from helper import EXAMPLES, example, file, is_refused, put, run

# At 1000 kbit/s: two boot-ups behind one another; then SYNC, two PDOs and the next SYNC behind one another.
SMALL = b"""0000000055 701 [1] 00
0000000110 702 [1] 00
0000001047 080 [0]
0000001142 181 [6] 01 02 03 04 05 06
0000001213 28A [3] 01 02 03
0000001260 080 [0]
"""


def table(name, trace, *words):
    """The rows of a table as CSV, without the columns' names."""
    status, output, faults = run("stats", "--format", "csv", "--table", name, *words, "-", given=trace)
    assert status == 0 and not faults
    return list(csv.reader(io.StringIO(output.decode())))[1:]


def test_stats_of_a_small_trace():
    assert table("identifiers", SMALL) == [
        ["080h", "SYNC", "2", "7.5", "0.213", "0.213", "0.213", "0.071", "1.260"],
        ["181h", "node 1 TPDO 1", "1", "7.5", "-", "-", "-", "0.047", "1.142"],
        ["28Ah", "PDO", "1", "5.6", "-", "-", "-", "0.142", "1.213"],
        ["701h", "node 1 heartbeat", "1", "4.4", "-", "-", "-", "0.000", "0.055"],
        ["702h", "node 2 heartbeat", "1", "4.4", "-", "-", "-", "0.055", "0.110"]]
    assert table("sync", SMALL) == [["period [ms]", "1", "0.213", "0.213", "0.213", "1.260"],
                                    ["to the last PDO [ms]", "1", "0.166", "0.166", "0.166", "1.047"],
                                    ["PDOs", "2", "0", "1", "2", "1.047"]]
    assert table("boots", SMALL) == [["1", "node 1", "0.055", "-", "-", "not over"], ["2", "node 2", "0.110", "-", "-", "not over"]]


def test_stats_says_how_busy_the_bus_is():
    status, output, _ = run("stats", "-", given=SMALL)
    lines = output.decode().splitlines()
    assert status == 0 and lines[1] == (
        "6 frames in 1.260 ms at 1000 kbit/s; the bus is busy 29.4 % of the time, at most 3.7 % in 10 ms, from 0 ms on"), lines
    across = b"0000005500 701 [1] 00\n0000015000 000 [2] 01 01\n0000025000 000 [2] 01 01\n"
    assert "at 10 kbit/s" in run("stats", "-", given=across)[1].decode().splitlines()[1]
    assert "at most 68.0 % in 10 ms, from 0 ms on" in run("stats", "-", given=across)[1].decode()


def test_stats_counts_what_the_trace_has():
    replies = file(EXAMPLES, "servo_axes.replies.txt")
    lines = re.findall(rb"(?m)^(\d{10}) ([0-7][0-9A-F]{2}) \[", replies)
    rows = {row[0][:3]: row for row in table("identifiers", replies)}
    assert sum(int(row[2]) for row in rows.values()) == len(lines) == 428
    for identifier in {each.decode() for _, each in lines}:
        times = [int(time) for time, each in lines if each.decode() == identifier]
        gaps = [after - before for before, after in zip(times, times[1:])]
        shown = [f"{each / 1000:.3f}" for each in (min(gaps), sum(gaps) / len(gaps), max(gaps))] if gaps else ["-"] * 3
        assert rows[identifier][2:3] + rows[identifier][4:7] == [str(len(times))] + shown, identifier


def test_stats_has_the_names_and_the_boots():
    status, output, faults = run("stats", "--script", example("io_modules.txt"), example("io_modules.replies.txt"))
    text = output.decode()
    assert status == 0 and not faults and "204 frames in 600.000 ms at 250 kbit/s" in text
    for line in (r"18Bh +infeed_inputs +2 ", r"601h +line SDO request +26 ", r"    SYNC\nnone",
                 r" 1 +line +0.220 +23.308 +23.088 +configured", r"12 +outfeed +500.220 +518.424 +18.204 +configured"):
        assert re.search(line.strip(), text), line
    failed = b"0000000055 705 [1] 00\n0000000155 note 5 failed timeout\n0000000210 705 [1] 00\n"
    assert table("boots", failed) == [["5", "node 5", "0.055", "0.155", "0.100", "failed timeout"],
                                      ["5", "node 5", "0.210", "-", "-", "not over"]]


def test_stats_says_why_it_cannot():
    put("notes.txt", b"0000000055 note 5 configured\n")
    assert run("stats", "notes.txt")[0] == 0
    is_refused(run("stats", "-", given=b""), "no trace")
    is_refused(run("stats", "-", given=SMALL[:-3]), "the last line is cut")
    is_refused(run("stats", "--script", example("io_modules.txt"), example("servo_axes.replies.txt")), "of different sessions")
