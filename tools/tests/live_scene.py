"""A script that is edited while `live` follows it: for tests over a cobench that stays open, or what stands in for it."""
import json
import os
import re
import shutil
import sys
import time

from cobench_tools.live.feed import Feed
from cobench_tools.live.follow import Follower
from helper import example, kept_at, put

FOLDER = kept_at("live")
HOLD = "hold"       # while there is a file of this name, the long run waits behind its first second

# A script with a long run, for long_stand_in: four seconds, in which each node sends its 2000h each 10 ms.
LONG = b"""eds drive 8
[2000]
DataType=6
[2001]
DataType=6
[2002]
DataType=6
[1018sub1]
DataType=7
node 5 pump drive
node 6 guard drive
param 5 2000 0 1
event 1 3500000 set 6 2000 0 7
event 2 3900000 power 6 off
horizon 4000000
"""


def day_script():
    """The example servo_axes as it is before its run, without its slips and queries."""
    with open(example("servo_axes.txt")) as file:
        text = file.read()
    text = text[:text.index("trace\n")].replace("param 2 6080 0 7000\n", "param 2 6080 0 4500\n")
    text = re.sub(r"# A slip.*?(?=#\n# The controller watches)", "", text, flags=re.DOTALL)
    return re.sub(r"(?m)^(diag|dcf \d+|cdcf \d+|param 2 6080 0 4500(?=\ndiag))\n", "", text)


def words():
    """What stands in for a cobench that stays open: the replies that are kept for these tests."""
    return [sys.executable, "-S", "-E", kept_at("open_stand_in"), kept_at(os.path.join("live", "replies"))]


def long_words():
    """What stands in for a cobench with a long run."""
    return [sys.executable, "-S", "-E", kept_at("long_stand_in"), HOLD]


class Scene:
    """A copy of tests/live in the folder of the test, or another script, and a follower of it.

    items  what a page that was there from the start has
    new    the items that came last
    """

    def __init__(self, program=None, script="network.txt", text=None):
        for name in ("drive.eds", "network.txt"):
            shutil.copy(os.path.join(FOLDER, name), name)
        if text:
            put(script, text)
        self.script, self.feed, self.items, self.new, self.number = script, Feed(), {}, {}, 0
        self.follower = Follower(script, program or words(), self.feed)

    def __enter__(self):
        self.look()
        return self

    def __exit__(self, *_):
        self.follower.close()

    def text(self):
        with open(self.script, "rb") as file:
            return file.read()

    def look(self):
        """Has the follower look, and takes what it puts into the feed."""
        self.follower.look()
        self.number, texts = self.feed.since(self.number, 0)
        self.new = {name: json.loads(text) for name, text in texts.items()}
        for name, item in self.new.items():
            self.items.pop(name, None)
            if item is not None:
                self.items[name] = item
        return self.items

    def save(self, text):
        """Saves the script, and has the follower look."""
        put(self.script, text)
        return self.look()

    def change(self, old, new):
        """Saves the script with one text in the place of another."""
        text = self.text()
        assert old in text, old
        return self.save(text.replace(old, new))

    def ledger(self):
        """What the last save cost."""
        return self.items["ledger"][-1]

    def status(self):
        return self.items["status"]["state"], self.items["status"]["words"]

    def windows(self):
        """The numbers of the windows that came last."""
        return sorted(int(name[7:]) for name in self.new if name.startswith("window/"))

    def trace(self):
        """The frames of the feed, as the lines of a trace have them."""
        return trace_of(self.items)


def sorts_of(items):
    """The sorts that a feed has, in their places."""
    rows = {}
    for name, item in items.items():
        if name.startswith("sorts/"):
            rows.update(enumerate(item["rows"], item["at"]))
    return rows


def window_of(item):
    """A window; of one whose lines came as they stand in the trace, as the others have it."""
    if "lines" not in item:
        return item
    now, window = item["at"], {"at": item["at"], "time": [], "sort": [], "data": "", "flags": []}
    for line in item["lines"].split("\n"):
        window["time"].append(int(line[:10]) - now)
        window["sort"].append(item["of"].get(line[11:], item["of"].get(line[11:18])))
        window["data"] += line[19:].replace(" ", "")
        now = int(line[:10])
    return window


def trace_of(items):
    """The lines of the trace that the windows of a feed have, notes and frames, by time."""
    sorts, lines = sorts_of(items), []
    for number in sorted(int(name[7:]) for name in items if name.startswith("window/")):
        window = window_of(items[f"window/{number}"])
        time_at, place = window["at"], 0
        for delta, sort in zip(window["time"], window["sort"]):
            identifier, size = sorts[sort][0], sorts[sort][3]
            time_at += delta
            data = bytes.fromhex(window["data"][place:place + 2 * size])
            place += 2 * size
            lines.append(f"{time_at:010} {identifier:03X} [{size}] {data.hex(' ').upper()}".rstrip())
        lines += [f"{flag[0]:010} note {flag[1]} {flag[4]}" for flag in window["flags"] if flag[2] in ("configured", "lost", "failed")]
    return sorted(lines, key=lambda line: line[:10])


def wait_until(is_so, longest=10.0):
    """Waits until something is so."""
    until = time.monotonic() + longest
    while not is_so():
        assert time.monotonic() < until, "it never is so"
        time.sleep(.01)
