#!/usr/bin/env python3
"""Times `cobtool conform` over a long log, by turns with that of another checkout where one is named.

Takes the path of the built program, how many frames the log has, 20,000,000 without a number, and the folder of the
other checkout. The log is of sixteen nodes with heartbeats, PDOs at SYNC and PDOs with an event time, on a bus that is
full to a fifth: the first second of the planned run, and then half a second of it again and again, with other values in
the PDOs each time. Nothing is wrong in it, which is asserted.

Prints of each turn the frames a second, by seconds of the processor, and the greatest memory. Limits: 60 MiB; beside
another checkout eight tenths of its pace, by the best turn of each. Run it from anywhere:
bench/conform.py crates/cobench/out/cobench 3000000 ../before
"""
import os
import sys
import tempfile

HERE = os.path.dirname(os.path.abspath(__file__))
TOOLS = os.path.join(HERE, "..", "tools")
sys.dont_write_bytecode = True
sys.path[:0] = [TOOLS, os.path.join(TOOLS, "tests")]

import measured
from buses import sheet
from cobench_tools import session, trace
from cobench_tools.evidence import Evidence

FRAMES, TURNS, NODES = 20_000_000, 3, range(1, 17)
START, PERIOD = 1_000_000, 500_000
MEMORY, SHARE = 60 << 20, 0.8


def script():
    """The network."""
    lines = ["bitrate 1000", f"horizon {START + PERIOD}", "manager 127 10000 500 500", f"eds device {len(sheet())}", *sheet()]
    for node in NODES:
        lines += [f"node {node} drive_{node} device", f"param {node} 1017 0 100"]
        for tpdo, kind, event in ((1, 1, 0), (2, 255, 50)):
            lines += [f"message m{node}_{tpdo} {node} {tpdo} {kind} 0 {event} 0", f"source m{node}_{tpdo} 1 {0x2000 + 2 * tpdo:X} 0",
                      f"source m{node}_{tpdo} 2 {0x2001 + 2 * tpdo:X} 0"]
    return "".join(f"{line}\n" for line in lines).encode()


def write_log(path, frames, count):
    """Writes the log of so many frames: the frames of the planned run up to START, and those behind it again and again."""
    period = [frame for frame in frames if frame[0] >= START]
    with open(path, "w") as log:
        log.writelines(line(*frame, 0) for frame in frames[:len(frames) - len(period)])
        for turn in range((count - len(frames)) // len(period) + 1):
            log.writelines(line(time + turn * PERIOD, identifier, data, turn) for time, identifier, data in period)


def line(time, identifier, data, turn):
    """A line of the log; the first four bytes of a PDO are of the turn."""
    digits = f"{turn * 0x9E3779B1 + identifier & 0xFFFFFFFF:08X}" + data[4:].hex() if 0x180 < identifier < 0x580 else data.hex()
    return f"({time // 1_000_000:010}.{time % 1_000_000:06}) can0 {identifier:03X}#{digits.upper()}\n"


def conform(tools, program):
    """The seconds of the processor and the greatest memory of `cobtool conform` over the log."""
    done = measured.session(sys.executable, [], os.path.join(tools, "cobtool"), "conform", "--cobench", program, "net.txt", "run.log")
    assert done.written.startswith(b"no errors, no warnings; "), done.written.decode()
    return done.seconds, done.memory


def main():
    program, count = os.path.abspath(sys.argv[1]), int(sys.argv[2]) if len(sys.argv) > 2 else FRAMES
    both = {"here": TOOLS, **{path: os.path.join(os.path.abspath(path), "tools") for path in sys.argv[3:]}}
    best = dict.fromkeys(both, float("inf"))
    with tempfile.TemporaryDirectory() as folder:
        os.chdir(folder)
        with open("net.txt", "wb") as file:
            file.write(script())
        write_log("run.log", trace.frames_of(trace.trace_of(session.run("net.txt", program, Evidence.QUERIES).lines("trace"))), count)
        for _ in range(TURNS if len(both) > 1 else 1):
            for name, tools in both.items():
                seconds, memory = conform(tools, program)
                best[name] = min(best[name], seconds)
                print(f"{name}: {count / seconds:,.0f} frames a second, {memory / (1 << 20):.0f} MiB", flush=True)
                assert memory <= MEMORY or name != "here", "more memory than the limit"
    shares = [seconds / best["here"] for name, seconds in best.items() if name != "here"]
    print("".join(f"{share:.2f} of the pace\n" for share in shares), end="")
    return 0 if min(shares, default=1) >= SHARE else 1


if __name__ == "__main__":
    sys.exit(main())
