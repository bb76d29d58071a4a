"""`live` over a run that is long: it comes in parts, and nothing behind a part is told as of now."""
import json
import os
import signal

from cobench_tools.live.edits import first_moment, items_of
from cobench_tools.live.programs import parts_of
from helper import put
from live_scene import HOLD, LONG, Scene, long_words, wait_until

END, KNOWN = 4_000_000, 999_999


class Long(Scene):
    """A script with a long run, and what a page had each time that something was put into the feed."""

    def __init__(self):
        super().__init__(long_words(), "long.txt", LONG)
        self.pages, self.sent = [], b""

    def __enter__(self):
        super().__enter__()
        self.watch()
        return self

    def watch(self):
        """Keeps from here on what is put into the feed and sent to the open cobench, of which the rest is never there at once."""
        put_items, opened = self.feed.put, self.follower.programs.opened
        send, opened.is_answering = opened.send, lambda: False

        def keep_items(items):
            put_items(items)
            self.pages.append({name: json.loads(text) for name, text in self.feed.since(0, 0)[1].items()})

        def keep_sent(text, count):
            self.sent += text
            send(text, count)

        self.feed.put, opened.send = keep_items, keep_sent

    def parts(self):
        """The pages that had a part of the run."""
        return [page for page in self.pages if page["run"]["known"] < page["run"]["end"]]


def windows_of(page, first=0, last=END):
    """The windows of a page that begin between two moments, by name."""
    windows = {name: item for name, item in page.items() if name.startswith("window/")}
    return {name: item for name, item in windows.items() if first <= item["at"] <= last}


def values_of(windows):
    """The bytes of all PDOs in some windows."""
    return {line[-5:] for item in windows.values() for line in item.get("lines", "").split("\n") if " 185 " in line}


def test_the_first_second_comes_before_the_rest():
    with Long() as scene:
        before = dict(scene.items)
        scene.change(b"param 5 2000 0 1", b"param 5 2000 0 2")
        first, part = scene.parts()
        assert first["run"]["known"] == 99_999 and windows_of(first, 0, 99_999) == windows_of(scene.items, 0, 99_999)
        assert part["run"]["known"] == KNOWN and part["run"]["end"] == END and part["status"]["waits"] == "trace"
        assert len(windows_of(part, 0, KNOWN)) == 100 and windows_of(part, 0, KNOWN) == windows_of(scene.items, 0, KNOWN)
        assert values_of(windows_of(part, 0, KNOWN)) == {"02 00"} and values_of(windows_of(part, KNOWN + 1)) == {"01 00"}
        assert windows_of(part, KNOWN + 1) == windows_of(before, KNOWN + 1), "what lies behind is that of the save before"
        assert scene.items["run"]["known"] == END and values_of(windows_of(scene.items)) == {"02 00"}
        assert scene.ledger()["windows"] == 400 and [what for what, _ in scene.ledger()["steps"]][-6:] == ["part", "its picture"] * 2 + ["trace", "picture"]


def test_no_page_has_an_old_window_as_one_of_now():
    for old, new in ((b"param 5 2000 0 1", b"param 5 2000 0 2"), (b"node 6 guard", b"node 6 gate"), (b"horizon 4000000", b"horizon 6000000"),
                     (b"event 1 3500000", b"event 1 1205000"), (b"horizon", b"event 3 2000055 power 6 off\nparam 6 2000 0 9\nhorizon")):
        with Long() as scene:
            before = scene.items["run"]
            scene.change(old, new)
            others = [page for page in scene.pages if page["run"] != before]
            assert len(scene.parts()) == 2 and scene.status() == ("well", ""), new
            for page in others:
                known = page["run"]["known"]
                assert windows_of(page, 0, known) == windows_of(scene.items, 0, known), (new, known)
                assert all(time <= known for states in page["run"]["states"].values() for time, _ in states), (new, known)
                assert page["run"]["lanes"] == scene.items["run"]["lanes"] and page["run"]["events"] == scene.items["run"]["events"]


def test_windows_of_other_names_are_not_kept_behind_a_part():
    with Long() as scene:
        scene.change(b"node 6 guard", b"node 6 gate")
        _, part = scene.parts()
        assert len(windows_of(part)) == 100 and len(windows_of(scene.items)) == 400


def test_what_goes_by_the_whole_run_waits_for_it():
    with Long() as scene:
        before = scene.items["boots"], scene.items["wrong"]
        scene.change(b"param 5 2000 0 1", b"param 5 2000 0 2\nparam 6 2002 0 2500")
        _, part = scene.parts()
        assert (part["boots"], part["wrong"]) == before, "node 6 is configured behind the part"
        assert scene.items["boots"]["times"]["6"] == 2_500_006 and scene.items["wrong"] == before[1]
        scene.change(b"param 6 2002 0 2500", b"param 6 2002 0 5000")
        assert scene.parts()[-1]["wrong"] == before[1] and [each["code"] for each in scene.items["wrong"]["findings"]] == ["unconfigured"]


def test_a_rest_that_is_there_is_not_waited_for():
    with Long() as scene:
        scene.follower.programs.opened.is_answering = lambda: True
        scene.change(b"param 5 2000 0 1", b"param 5 2000 0 2")
        assert len(scene.parts()) == 1 and scene.items["run"]["known"] == END and values_of(windows_of(scene.items)) == {"02 00"}


def test_a_run_is_asked_for_in_parts_where_they_are_worth_it():
    with Long() as scene:
        scene.change(b"param 5 2000 0 1", b"param 5 2000 0 2")
        asked = b"horizon 99999\ntrace\nhorizon 4000000\nhorizon 999999\ntrace\nhorizon 4000000\ntrace\n"
        assert scene.sent.endswith(b"cdcf 5\ndcf 5\n" + asked), scene.sent
        for old, new, horizon in ((b"param 5 2000 0 2", b"param 5 2000 0 1", None), (b"param 5 2000 0 1", b"param 5 2000 0 4", 999_999),
                                  (b"param 5 2000 0 4", b"param 5 2000 0 2", 999_999), (b"6 2000 0 7", b"6 2000 0 8", None),
                                  (b"event 1 3500000", b"event 1 1205000", 2_199_999),
                                  (b"# a comment\n", b"", None), (b"horizon 4000000", b"horizon 7000000", 4_999_999),
                                  (b"event", b"param 5 FFFF 0 7\nevent", None), (b"horizon 7000000", b"horizon 1900000", None),
                                  (b"param 5 2000 0 2", b"param 5 2000 0 3", None)):
            scene.save(b"# a comment\n" + scene.text().replace(b"# a comment\n", b""))
            scene.sent = b""
            scene.change(old, new)
            asked = [line for line in scene.sent.split(b"\n") if line.startswith(b"horizon ")]
            assert (b"horizon %d" % (horizon or 0) in asked) == bool(horizon) and scene.ledger()["why"] == "", (new, asked)
            assert scene.sent.endswith(b"trace\n") and scene.status() == ("well", "")


def test_the_moments_of_parts():
    assert [parts_of(first, 10_000_000) for first in (0, 9_999, 10_000, 5_555_555, 8_009_999, 8_010_000)] == [
        [99_999, 999_999], [99_999, 999_999], [109_999, 1_009_999], [5_649_999, 6_549_999], [8_099_999, 8_999_999], []]
    assert [parts_of(0, horizon) for horizon in (2_000_000, 1_999_999, 0)] == [[99_999, 999_999], [], []]
    old, new = (items_of([b"horizon %d" % horizon] + events) for horizon, events in (
        (500, [b"event 1 30 set 5 6041 00 7", b"event 2 20 power 5 on"]), (400, [b"event 1 40 set 5 6041 00 7"])))
    event, horizon, drop, parameter = b"event 1 40 set 5 6041 00 7\n", b"horizon 400\n", b"drop-event 2\n", b"param 5 1017 00 5\n"
    for edits, moment in (([event], 30), ([drop], 20), ([horizon], 400), ([horizon, drop], 20), ([parameter, event], 30)):
        assert first_moment(edits, old, new, False) == moment and first_moment(edits, old, new, True) == 0, edits
    assert first_moment([event, b"bitrate 500\n"], old, new, False) == 0
    assert all(first_moment(edits, old, new, False) > 10_000_000 for edits in ([], [parameter]))


def test_a_save_while_the_rest_is_awaited_is_followed():
    with Long() as scene:
        follower, answer_part = scene.follower, scene.follower.answer_part

        def save_too(*words):
            answer_part(*words)
            put("long.txt", scene.text().replace(b"param 5 2000 0 2", b"param 5 2000 0 3"))

        follower.answer_part = save_too
        scene.change(b"param 5 2000 0 1", b"param 5 2000 0 2")
        follower.answer_part = answer_part
        assert values_of(windows_of(scene.items)) == {"02 00"} and scene.status() == ("well", "")
        scene.look()
        assert values_of(windows_of(scene.items)) == {"03 00"} and scene.ledger()["edits"] == ["param 5 2000 0 3"]
        assert scene.items["run"]["end"] == scene.items["run"]["known"] == END


def test_replies_that_are_due_leave_the_project_what_it_is():
    with Long() as scene:
        still = iter((False,))
        scene.follower.watch.stands_still = lambda: next(still, True)
        scene.change(b"param 5 2000 0 1", b"param 5 2000 0 2")
        assert scene.sent.count(b"horizon 99999\n") == 2, "it was asked for a part, left, and asked again"
        assert scene.status() == ("well", "") and scene.ledger()["why"] == "" and scene.ledger()["edits"] == []
        assert scene.items["run"]["known"] == END and values_of(windows_of(scene.items)) == {"02 00"}
        scene.change(b"param 5 2000 0 2", b"param 5 2000 0 3")
        assert scene.ledger()["edits"] == ["param 5 2000 0 3"] and values_of(windows_of(scene.items)) == {"03 00"}


def test_a_cobench_that_ends_behind_a_part_leaves_it_a_part():
    with Long() as scene:
        follower, answer_part = scene.follower, scene.follower.answer_part
        open(HOLD, "w").close()

        def end_too(*words):
            answer_part(*words)
            if follower.programs.parts:
                return
            os.kill(follower.programs.opened._process.pid, signal.SIGKILL)
            wait_until(lambda: not follower.programs.opened.is_running())

        follower.answer_part = end_too
        scene.change(b"param 5 2000 0 1", b"param 5 2000 0 2")
        follower.answer_part = answer_part
        os.remove(HOLD)
        assert scene.status()[0] == "fault" and scene.items["run"]["known"] == KNOWN, scene.status()
        assert values_of(windows_of(scene.items, 0, KNOWN)) == {"02 00"} and values_of(windows_of(scene.items, KNOWN + 1)) == {"01 00"}
        scene.change(b"param 5 2000 0 2", b"param 5 2000 0 3")
        assert scene.ledger()["edits"] is None and scene.status() == ("well", "")
        assert scene.items["run"]["known"] == END and values_of(windows_of(scene.items)) == {"03 00"}
