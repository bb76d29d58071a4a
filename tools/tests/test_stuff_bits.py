"""Stuff bits: as the plain program counts them, and in what is told of runs of version 3."""
import json
import os
import random
import sys

from helper import ROOT, put, recorded, run
from test_machine import imported

from cobench_tools import trace, wire_bits

sys.path.append(os.path.join(ROOT, "reference"))
from rules import frames  # noqa: E402


def some_frames():
    chance = random.Random(7)
    return [(chance.randrange(0x800), bytes(chance.choice((0, 255, chance.randrange(256))) for _ in range(chance.randrange(9))))
            for _ in range(3000)]


def test_the_bits_are_those_of_the_plain_program():
    for identifier, data in some_frames():
        bits = wire_bits.exact_bits(identifier, data)
        assert bits == frames.exact_bits(frames.Frame(identifier, data)), (identifier, data)
        assert 47 + 8 * len(data) <= bits <= 47 + 8 * len(data) + (33 + 8 * len(data)) // 4


def lines_of(bits, rate):
    """A trace without a pause."""
    found, time = [], 0
    for identifier, data in some_frames()[:50]:
        time += bits(identifier, data) * rate
        found.append(trace.Frame(time, identifier, data))
    return found


def test_a_trace_alone_tells_whether_it_has_stuff_bits():
    for rate in trace.BIT_TIMES:
        with_them = trace.as_counted(lines_of(wire_bits.exact_bits, rate))
        assert trace.is_stuffed(with_them) and trace.bit_time(with_them, None) == rate
        without = trace.as_counted(lines_of(lambda identifier, data: 47 + 8 * len(data), rate))
        assert not trace.is_stuffed(without) and trace.bit_time(without, None) == rate


def test_the_run_of_a_machine_is_told_with_them():
    """The bus is full of SDO while the nodes boot; no wait in the trace is above its bound; the boot's frames have their bits."""
    imported()
    status, output, faults = run("load", "--json", "--cobench", recorded(), "made.txt")
    said = json.loads(output)
    assert not [each for each in said["findings"] if each["code"] == "trace"] and len(said["frames"]) > 40, (status, faults)
    assert all(each["seen_us"] is None or each["wait_stuffed_us"] is None or each["seen_us"] <= each["wait_stuffed_us"] for each in said["frames"])
    sync = next(each for each in said["frames"] if each["frames"] == "SYNC")
    assert (sync["time_us"], sync["time_stuffed_us"]) == (2 * 47, 2 * wire_bits.exact_bits(0x080, b""))
    beat = next(each for each in said["frames"] if each["identifier"] == 0x701)
    assert beat["time_stuffed_us"] == 2 * max(wire_bits.exact_bits(0x701, bytes([state])) for state in (4, 5, 127))
    rows = run("load", "--table", "boot", "--format", "csv", "--cobench", recorded(), "made.txt")[1].decode().splitlines()
    first = next(row.split(",") for row in rows if row.startswith("1,"))
    end = int(1000 * float(first[6]))
    shown = [line for line in trace_of_the_run() if line.time <= end and line.identifier in (0x581, 0x601)]
    assert first[3] == str(len(shown)) and first[5] == f"{2 * sum(wire_bits.exact_bits(each.identifier, each.data) for each in shown) / 1000:.3f}"


def trace_of_the_run():
    run("export", "--cobench", recorded(), "files", "made.txt")
    with open(os.path.join("files", "trace.txt"), "rb") as opened:
        found = trace.trace_of(line.rstrip(b"\n") for line in opened)
    return [line for line in found if isinstance(line, trace.Frame)]


def test_stats_of_a_run_and_of_its_trace_agree():
    imported()
    run("export", "--cobench", recorded(), "files", "made.txt")
    told = run("stats", "--cobench", recorded(), "made.txt")[1].decode().splitlines()
    alone = run("stats", os.path.join("files", "trace.txt"))[1].decode().splitlines()
    assert "at 500 kbit/s; the bus is busy" in told[1] and "at most 100.0 % in 10 ms" in told[1], told[1]
    assert told[1].split(", at most")[1] == alone[1].split(", at most")[1], (told[1], alone[1])


def test_a_node_that_does_not_get_its_turn_is_told_of_a_full_bus():
    """The bus is full of SDO while others boot: `check` says so of a node that isn't configured at the horizon."""
    made, _ = imported()
    put("made.txt", made.encode() + b"horizon 150000\n")
    lines = run("check", "--cobench", recorded(), "made.txt")[1].decode().splitlines()
    assert any("[unconfigured]" in line and "full of SDO from " in line for line in lines), lines
