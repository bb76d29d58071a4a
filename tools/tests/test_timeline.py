"""`timeline`: what its page has in it. How it looks and acts is in test_timeline_page."""
import json
import re

from helper import example, put, run


def content(page):
    """What a page of `timeline` draws."""
    found = re.search(rb'<script type="application/json" id="content">(.*?)</script>', page, re.DOTALL)
    return json.loads(found.group(1))


def drawn(*words, given=b""):
    status, page, faults = run("timeline", *words, given=given)
    assert status == 0 and not faults, faults
    return content(page)


def servo():
    return drawn("--script", example("servo_axes.txt"), example("servo_axes.replies.txt"))


def frames_of(picture):
    """The frames as (time, sort, bytes)."""
    frames = []
    for window in picture["windows"]:
        time, place = window["at"], 0
        for delta, number in zip(window["time"], window["sort"]):
            sort = picture["sorts"][number]
            time, size = time + delta, 2 * sort[3]
            frames.append((time, sort, window["data"][place:place + size]))
            place += size
        assert place == len(window["data"])
    return frames


def test_timeline_is_one_file_that_needs_nothing_beside_it():
    page = run("timeline", "--script", example("servo_axes.txt"), example("servo_axes.replies.txt"))[1]
    for word in (b"http", b"src=", b"@import", b"url(", b"/*STYLE*/", b"/*SCRIPT*/", b"/*CONTENT*/"):
        assert word not in page, word


def test_timeline_has_all_of_the_trace():
    picture = servo()
    frames = frames_of(picture)
    assert [lane[:2] for lane in picture["lanes"]] == [[127, "manager"], [1, "x_axis"], [2, "y_axis"], [10, "motion"]]
    assert len(frames) == 428 and len(picture["events"]) == 9 and picture["end"] == 330000 and picture["bit"] == 1
    lines = [f"{time:010} {sort[0]:03X} [{sort[3]}] {bytes.fromhex(data).hex(' ').upper()}".rstrip() for time, sort, data in frames]
    with open(example("servo_axes.replies.txt")) as replies:
        trace = [line for line in replies.read().splitlines() if re.match(r"\d{10} [0-7]", line)]
    assert lines == trace
    states = [picture["stateNames"][state] for _, state in picture["states"]["2"]]
    assert states == ["pre-operational", "operational", "off", "pre-operational", "operational"], states


def test_timeline_names_what_pdos_carry():
    sorts = [sort for sort in servo()["sorts"] if sort[4][0] == "x_actual"]
    assert sorts == [[0x181, 3, 1, 6, ["x_actual", [["6041h Statusword", 16, "unsigned"],
                                                    ["6064h Position actual value [inc]", 32, "signed"]]]]], sorts


def test_timeline_tells_frames_apart_that_look_alike():
    given = (b"0000000055 705 [1] 00\n0000000155 080 [1] 01\n0000000255 080 [1] 02\n0000000355 185 [1] 07\n"
             b"0000000455 185 [2] 07 08\n0000000555 705 [1] 05\n0000000655 080 [1] 01\n")
    picture = drawn("-", given=given)
    texts = [sort[4] for _, sort, _ in frames_of(picture)]
    assert texts == ["node 5 boot-up", "SYNC 1", "SYNC 2", ["node 5 TPDO 1", None], ["node 5 TPDO 1", None],
                     "node 5 heartbeat: operational", "SYNC 1"], texts
    assert [sort[3] for _, sort, _ in frames_of(picture)] == [1, 1, 1, 1, 2, 1, 1]
    assert picture["states"]["5"] == [[0, 3], [555, 2]], picture["states"]


def test_timeline_flags_notes_emergencies_and_events():
    picture = servo()
    flags = picture["windows"][0]["flags"]
    assert [flag[1:4] for flag in flags] == [
        [1, "configured", "configured"], [2, "configured", "configured"], [10, "configured", "configured"],
        [10, "emergency", "EMCY 8130h heartbeat error"], [2, "lost", "lost"],
        [10, "recovered", "EMCY 0000h no error any more"], [2, "configured", "configured"]], flags
    assert picture["events"][2] == [63500, 1, "event", "6041h := 0x0637", "event 3: 6041h Statusword := 0x0637"]
    assert picture["events"][6][3] == "power off" and picture["events"][8][1:4] == [127, "event", "start motion"]


def test_timeline_needs_no_script():
    picture = drawn(example("io_modules.replies.txt"))
    assert picture["events"] == [] and picture["bit"] == 4 and picture["script"] is False
    assert [lane[1:] for lane in picture["lanes"]] == [["manager", "node 127"], ["node 1", ""], ["node 11", ""], ["node 12", ""]]
    assert b"</title><script>" not in run("timeline", "--title", "</title><script>", example("io_modules.replies.txt"))[1]


def test_timeline_reads_names_that_are_no_utf_8():
    put("net.txt", b"eds d 4\n[6000]\nParameterName=K\xe4lte\nDataType=5\nPDOMapping=1\nnode 5 a d\n"
                   b"event 1 10 set 5 6000 0 \xe4\nhorizon 60\ntrace\n")
    put("replies", b"ok\nok\nok\nok\nlines 1\n0000000055 705 [1] 00\n")
    event = drawn("--script", "net.txt", "replies")["events"][0]
    assert event == [10, 5, "event", "6000h := \u00e4", "event 1: 6000h K\u00e4lte := \u00e4"], event
