#!/usr/bin/env python3
"""Times `cobtool live` from save to page, beside starting afresh, by turns.

Takes the path of the built program. Three scripts: the network of trace.py to ten seconds (126 nodes, 16
messages at each second SYNC, 103,110 lines of trace), in which a parameter, a heartbeat time, an event at
9.9 s and a message's type change; 126 drives of the data sheet examples/servo_drive.eds to 0.1 s, in which
a parameter changes; and the example servo_axes, in which a parameter changes. For each change it times

    afresh  the script expanded, and a cobench that answers it with all queries: `diag`, `dcf` and `cdcf`
            of each node, `trace`, `project`; its replies read, and nothing made of them
    whole   `cobtool live` that is started over it, until all is there for the page
    files   a save while `cobtool live` follows it, until all but the run is there for the page
    first   the same, until the first part of the run is there, or all of it where it doesn't come in parts
    page    the same, until all of the run is there

without the browser, and without the wait of at most 0.02 s for the next look. Prints the least of so many
turns in milliseconds, and first and page beside afresh. Limits: a third of afresh, for first where cobench
simulates all of ten seconds anew, for page where it simulates little; 100 ms for the example. Run it from
anywhere: bench/live.py crates/cobench/out/cobench
"""
import os
import re
import sys
import tempfile
import time

HERE = os.path.dirname(os.path.abspath(__file__))
sys.dont_write_bytecode = True
sys.path[:0] = [HERE, os.path.join(HERE, "..", "tools"), os.path.join(HERE, "..", "tools", "tests")]

import trace
from cobench_tools import session
from cobench_tools.live.feed import Feed
from cobench_tools.live.follow import Follower
from drives import SHEET
from live_scene import day_script

TURNS = 5
QUERIES = "diag", "dcf", "cdcf", "trace", "project"


def long_run():
    """The network of ten seconds, with a value of each node and an event at its end."""
    values = b"".join(b"param %d 2000 0 7\n" % node for node in range(1, trace.NODES + 1))
    sheet = b"[2000]\nDataType=6\n"
    text = b"".join(trace.script("long")[0]).replace(b"[1017]", sheet + b"[1017]", 1)
    lines = int(re.match(rb"eds a ([0-9]+)", text).group(1)) + sheet.count(b"\n")
    return re.sub(rb"^eds a [0-9]+", b"eds a %d" % lines, text) + values + b"event 999 9900000 set 3 6064 0 5\n"


def drives():
    nodes = b"".join(b"node %d n%d servo\nparam %d 1017 0 100\n" % (node, node, node) for node in range(1, trace.NODES + 1))
    return b"bitrate 1000\nhorizon 100000\neds servo <%s\n" % os.path.abspath(SHEET).encode() + nodes


def axes():
    return day_script().encode().replace(b"<", b"<" + os.path.dirname(os.path.abspath(SHEET)).encode() + b"/")


SHARE, MOST = 1 / 3, 100        # of afresh, and milliseconds

# Script, what changes, what stands for the number of the turn there, and what has a limit: `first` or `page` beside afresh, or milliseconds.
CHANGES = [
    (long_run, "a parameter of one of 126 nodes", b"param 60 2000 0 7", b"param 60 2000 0 %d", "first"),
    (long_run, "a heartbeat time of one of 126 nodes", b"param 60 1017 0 100", b"param 60 1017 0 10%d", "first"),
    (long_run, "an event at 9.9 of 10 s", b"event 999 9900000 set 3 6064 0 5", b"event 999 9900000 set 3 6064 0 %d", "page"),
    (long_run, "a message's type", b"message m05 5 1 2 0 0 0", b"message m05 5 1 %d 0 0 0", "first"),
    (drives, "a parameter of one of 126 drives", b"param 60 1017 0 100", b"param 60 1017 0 10%d", "page"),
    (axes, "a parameter of the example", b"param 1 1017 0 100", b"param 1 1017 0 10%d", ""),
]


class Stopwatch(Feed):
    """A feed that tells when the files, and when the parts of the run and all of it were put into it."""

    def put(self, items):
        super().put(items)
        now = time.perf_counter()
        if "table/messages" in items:
            self.files, self.runs = now, []
        if "run" in items:
            self.runs.append(now)


def timed(work):
    start = time.perf_counter()
    work()
    return time.perf_counter() - start


def save(text):
    with open("network.txt", "wb") as file:
        file.write(text)


def measure(program, text, old, new):
    """The least of all turns in milliseconds: afresh, whole, files, first and page."""
    feed, turns = Stopwatch(), []
    save(text)
    follower = Follower("network.txt", [program], feed)
    follower.look()
    for turn in range(TURNS):
        save(text.replace(old, new % (turn + 3)))
        start = time.perf_counter()
        follower.look()
        files, first, page = feed.files - start, feed.runs[0] - start, feed.runs[-1] - start
        if follower.records[-1]["edits"] is None or follower.records[-1]["count"] != 1:
            sys.exit("not one edit: " + str(follower.records[-1]))
        afresh = timed(lambda: session.run("network.txt", program, QUERIES))
        other = Follower("network.txt", [program], Feed())
        whole = timed(other.look)
        other.close()
        turns.append((afresh, whole, files, first, page))
    follower.close()
    return [1000 * min(column) for column in zip(*turns)]


def is_over(limit, afresh, first, page):
    """Whether a change is over its limit."""
    return {"first": first > SHARE * afresh, "page": page > SHARE * afresh}.get(limit, page > MOST)


def main():
    if len(sys.argv) != 2:
        sys.exit("usage: live.py PROGRAM")
    program = os.path.abspath(sys.argv[1])
    print(f"{'':38} {'afresh':>8} {'whole':>8} {'files':>8} {'first':>8} {'page':>8}  of afresh")
    failed = False
    with tempfile.TemporaryDirectory() as folder:
        os.chdir(folder)
        for script, what, old, new, limit in CHANGES:
            times = afresh, _, _, first, page = measure(program, script(), old, new)
            over = is_over(limit, afresh, first, page)
            shown = " ".join(f"{each:8.1f}" for each in times) + f"  {first / afresh:.2f} {page / afresh:.2f}"
            print(f"{what:38} {shown}{': over the limit' if over else ''}", flush=True)
            failed = failed or over
    return 1 if failed else 0


sys.exit(main())
