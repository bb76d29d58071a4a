"""`live` over random histories of saves: what the page has is what a cobench answers that is started afresh."""
import contextlib
import json
import os
import shlex
import sys
from unittest import mock

from cobench_tools import judgement, safe_text, session, tool
from cobench_tools.live import answers, follow, programs
from cobench_tools.live.feed import Feed
from cobench_tools.live.follow import Follower
from cobench_tools.report import json_of
from cobench_tools.script_order import ScriptOrder
from helper import in_parallel, kept_at, put, real
from histories import history
from live_scene import sorts_of, trace_of, window_of

# Histories, by seed and saves, in which a node becomes the controller, one does in a version that has none, and one is it no more.
CONTROLLERS = (4, 3), (10, 2), (14, 3)
KEPT = [sys.executable, "-S", "-E", kept_at("open_stand_in"), kept_at(os.path.join("live", "histories"))]


@contextlib.contextmanager
def in_parts():
    """Has runs that are as short as those of histories come in parts, of which it keeps how many there were."""
    answer = mock.patch.object(Follower, "answer_part", autospec=True, side_effect=Follower.answer_part)
    with mock.patch.object(follow, "SHORT", -1), mock.patch.object(programs, "PARTS", (10_000,)), answer as answered:
        yield answered


class Seen:
    """A follower, and what a page of it has."""

    def __init__(self, program):
        self.feed, self.items, self.number = Feed(), {}, 0
        self.follower = Follower("network.txt", program, self.feed)

    def look(self):
        self.follower.look()
        self.number, texts = self.feed.since(self.number, 0)
        self.items.update({name: json.loads(text) for name, text in texts.items()})
        self.items = {name: item for name, item in self.items.items() if item is not None}
        return self.items


def drawn(items):
    """What the page draws of the run: each window with what its frames are."""
    sorts = sorts_of(items)
    windows = {name: (item["time"], [sorts[sort] for sort in item["sort"]], item["data"], item["flags"])
               for name, item in ((name, window_of(item)) for name, item in items.items() if name.startswith("window/"))}
    return windows, items["run"], items["boots"]


def without_marks(items):
    """Items but for what the last save changed."""
    found = {}
    for name, item in items.items():
        if name.startswith("node/"):
            item = {**item, "marks": [], "isNew": False, "values": [row[:3] for row in item["values"] if row[2] != "-"]}
        if name.startswith("table/"):
            item = {**item, "marks": [], "was": {}, "gone": []}
        if name.startswith(("node/", "table/", "wrong")) and (name != "table/left-out" or item["rows"]):
            found[name] = item
    return found


def is_what_cobench_answers(items, follower, program):
    """The feed has each answer of a cobench over the script, to the byte, and what a page that is new would show."""
    answered = session.run("network.txt", " ".join(map(shlex.quote, program)), ("diag", "dcf", "cdcf", "trace"))
    assert items["wrong"]["diagnostics"] == [safe_text.readable(tool.shown(line)) for line in answered.lines("diag")]
    assert sorted(int(name[5:]) for name in items if name.startswith("node/")) == sorted(answered.project.nodes)
    for node in answered.project.nodes:
        dcf = b"".join(line + b"\n" for line in answered.lines("dcf", node))
        assert follower.saved(f"{node}.dcf")[0] == dcf and items[f"node/{node}"]["dcf"] == [safe_text.readable(tool.shown(line)) for line in dcf.splitlines()]
        assert items[f"node/{node}"]["bytes"] == b"".join(answered.lines("cdcf", node)).replace(b" ", b"").decode()
    assert trace_of(items) == [line.decode() for line in answered.lines("trace")]
    found = ScriptOrder(answered.pairs).sorted(judgement.of_check(answered))
    if len(answered.lines("trace")) <= answers.MOST_LINES:
        assert items["wrong"]["findings"] == [json_of(each) for each in found], "what check says"
    refused = sum(not reply.is_accepted() for _, reply in answered.pairs)
    told = [1 + len(each["notes"]) for each in items["wrong"]["findings"] if each["code"] == "refused"]
    assert sum(told) == refused or max(told) > 8 and sum(told) < refused


def is_followed(seed, program, saves, with_controllers=False):
    """A history of saves: after each the page has what is answered afresh; gives how many saves went as edits."""
    seen = Seen(program)
    try:
        for files in history(seed, saves, with_controllers):
            for name, data in files.items():
                put(name, data)
            items = seen.look()
            assert items["status"]["state"] == "well", (seed, items["status"])
            is_what_cobench_answers(items, seen.follower, program)
            is_as_new(items, program)
    finally:
        seen.follower.close()
    first, *others = items["ledger"]
    assert first["edits"] is None and all(save["edits"] is not None for save in others), seed
    return len(others)


def is_as_new(items, program):
    """A page that is opened by another program has the same, but for what is marked."""
    new = Seen(program)
    try:
        fresh = new.look()
    finally:
        new.follower.close()
    assert without_marks(items) == without_marks(fresh) and drawn(items) == drawn(fresh)


def test_kept_histories_are_followed():
    assert [is_followed(seed, KEPT, 3) for seed in (1, 2, 3)] == [1, 2, 3]


def test_kept_histories_with_controllers_are_followed():
    assert [is_followed(seed, KEPT, saves, True) for seed, saves in CONTROLLERS] == [saves for _, saves in CONTROLLERS]


def test_kept_histories_are_followed_in_parts():
    with in_parts() as answered:
        assert [is_followed(seed, KEPT, 3) for seed in (1, 2, 3)] == [1, 2, 3]
        assert answered.call_count > 6


def generated_history(seed):
    """A history that a cobench answers; every second one has its runs in parts."""
    try:
        with in_parts() if seed % 2 else contextlib.nullcontext():
            return is_followed(seed, shlex.split(real()), 8, seed % 3 == 2)
    except AssertionError as error:
        return f"{seed}: {error}"


def all_three_hundred_histories_are_followed():
    real()
    found = in_parallel(generated_history, list(range(300)))
    wrong = [each for each in found if isinstance(each, str)]
    assert not wrong and sum(found) > 1800, (wrong, found)
