"""The timeline of `conform`: recorded lanes above planned ones, and deviations as flags; in a browser where Chromium is there."""
import json
import re

from browser import Browser
from helper import example, file, put, recorded, run

LANES = [(127, "manager"), (1, "x_axis"), (2, "y_axis"), (10, "motion")]


def drawn(*marks, start=0):
    """The content of the timeline of a run of servo_axes without the nth frames with some marks, and the page's text."""
    lines = run("candump", example("servo_axes.replies.txt"))[1].decode().splitlines(keepends=True)[start:]
    for mark, nth in marks:
        del lines[[place for place, line in enumerate(lines) if mark in line][nth]]
    put("machine.log", "".join(lines).encode())
    status, _, faults = run("conform", "--cobench", recorded(), "--timeline", "run.html", example("servo_axes.txt"), "machine.log")
    assert status == (1 if marks else 0) and not faults, (status, faults)
    page = file("run.html").decode()
    return json.loads(re.search(r'(?s)id="content">(.*?)</script>', page).group(1)), page


def test_each_recorded_lane_stands_above_the_planned_one():
    content, page = drawn()
    lanes = [(key, name, bool(rest[1:] and rest[1])) for key, name, *rest in content["lanes"]]
    assert lanes == [lane for key, name in LANES for lane in ((key, name, False), (1000 + key, name, True))], lanes
    assert not re.search(r'(?:src|href)="', page) and "http" not in page.replace("http://www.w3.org", "")


def frames_of(content, above):
    """The frames of the recorded lanes, or of the planned ones: time, identifier and bytes."""
    found = []
    for window in content["windows"]:
        time, place = window["at"], 0
        for gap, number in zip(window["time"], window["sort"]):
            time += gap
            identifier, _, lane, size, _ = content["sorts"][number]
            if (lane < 1000) == above:
                found.append((time, identifier, window["data"][place:place + 2 * size]))
            place += 2 * size
    return found


def test_the_run_itself_is_drawn_twice():
    content, _ = drawn()
    assert frames_of(content, True) == frames_of(content, False) and len(frames_of(content, True)) == 428
    assert not [flag for flag in content["events"] if flag[2] == "deviation"]


def test_deviations_are_flags_in_their_lanes_at_their_times():
    content, _ = drawn((" 181#", 8), (" 701#05", 1))
    flags = [flag for flag in content["events"] if flag[2] == "deviation"]
    assert [(lane, label) for _, lane, _, label, _ in flags] == [(1, "pdo-missing"), (1, "heartbeat-missed")], flags
    assert [time for time, *_ in flags] == [90_047, 301_109], flags     # the SYNC, and the heartbeat that comes late
    assert flags[0][4].endswith("line 259") and "1017h has 100.000 ms" in flags[1][4]


def test_a_log_that_begins_later_lies_on_the_run_by_its_first_landmark():
    content, _ = drawn(start=300)
    ours, planned = frames_of(content, True), frames_of(content, False)
    assert ours == planned[300:], (ours[:3], planned[300:303])
    pdo = next(row for row in content["sorts"] if row[0] == 0x181 and row[2] == 1)
    assert pdo[4][0] == "x_actual" and [label for label, _, _ in pdo[4][1]] == ["6041h Statusword", "6064h Position actual value [inc]"], pdo


def test_the_page_shows_it():
    drawn((" 181#", 8), (" 701#05", 1))
    with Browser() as browser:
        for wide in (1280, 390):
            page = browser.page(wide, 800)
            page.open_file("run.html")
            assert page.value("document.getElementById('summary').textContent").startswith("426 recorded frames in 0.320"), wide
            assert page.value("document.documentElement.scrollWidth") <= wide
            told = page.value("(() => { timeline.stepFlag(1); while (timeline.told.flag.kind !== 'deviation') timeline.stepFlag(1); "
                              "return spoken(timeline.told); })()")
            assert "90.047" in told and "not as planned · x_axis" in told and "it doesn't come after SYNC" in told, told
            assert not page.faults(), page.faults()


def states_of(content, lane):
    """The states of a lane: from which microsecond on it has which."""
    return [(time, content["stateNames"][state]) for time, state in content["states"][str(lane)]]


def without(*marks):
    """The content of the timeline of a run of servo_axes without the frames with these marks."""
    lines = run("candump", example("servo_axes.replies.txt"))[1].decode().splitlines(keepends=True)
    put("machine.log", "".join(line for line in lines if not any(mark in line for mark in marks)).encode())
    run("conform", "--cobench", recorded(), "--timeline", "run.html", example("servo_axes.txt"), "machine.log")
    return json.loads(re.search(r'(?s)id="content">(.*?)</script>', file("run.html").decode()).group(1))


def test_a_node_that_was_never_heard_has_no_state():
    content = without(" 702#", " 582#", " 182#", " 282#")
    assert states_of(content, 2) == [(0, "not heard")], "commands to it are no states"
    assert [name for _, name in states_of(content, 1002)][:2] == ["pre-operational", "operational"]


def test_a_node_is_not_heard_before_its_first_frame_and_once_its_heartbeat_is_overdue():
    content, _ = drawn()
    # Its boot-up messages and the start commands of the trace; its last heartbeat comes at 109.956 ms, with a period of 100 ms,
    # of which 2 * 500 us + 200 ppm + 1 us are let pass.
    trace = run("explain", example("servo_axes.txt"), example("servo_axes.replies.txt"))[1].decode().splitlines()
    boots = [int(line[:10]) for line in trace if line.endswith("702 y_axis boot-up")]
    starts = [int(line[:10]) for line in trace if line.endswith("000 start y_axis")]
    last = max(int(line[:10]) for line in trace if " y_axis heartbeat" in line and int(line[:10]) < 120_000)
    assert states_of(content, 2) == [(0, "not heard"), (boots[0], "pre-operational"), (starts[0], "operational"),
                                     (last + 101_021, "not heard"), (boots[1], "pre-operational"), (starts[1], "operational")]


def test_a_log_from_the_middle_has_the_state_that_its_heartbeats_tell():
    content, _ = drawn(start=300)
    start = frames_of(content, True)[0][0]
    first = next(time for time, identifier, _ in frames_of(content, True) if identifier == 0x181)
    assert states_of(content, 1) == [(0, "not heard"), (first, "operational")] and first >= start, states_of(content, 1)


def test_planned_emergencies_are_no_alarms():
    content, _ = drawn()
    flags = [(flag[1], flag[2], flag[3][:10]) for window in content["windows"] for flag in window["flags"] if flag[2] in ("emergency", "expected")]
    assert flags == [(10, "expected", "EMCY 8130h"), (1010, "expected", "EMCY 8130h")], flags
    with Browser() as browser:
        page = browser.page(1280, 800)
        page.open_file("run.html")
        assert page.value("timeline.trace.flags.filter(isTrouble).length") == 0
    content, _ = drawn((" 701#05", 1))
    assert [flag[2] for flag in content["events"] if flag[2] == "deviation"] == ["deviation"]


def others(content):
    """The frames that the other run doesn't have: time, lane and identifier."""
    found = []
    for window in content["windows"]:
        times = [window["at"] + sum(window["time"][:place + 1]) for place in range(len(window["time"]))]
        found += [(times[place], *content["sorts"][window["sort"][place]][2::-2]) for place in window["other"]]
    return found


def test_frames_that_the_other_run_does_not_have_are_marked():
    assert others(drawn()[0]) == []
    content, _ = drawn((" 701#05", 1))
    gone = [time for time, identifier, _ in frames_of(content, False) if identifier == 0x701][2]
    assert others(content) == [(gone, 1001, 0x701)], others(content)
    lines = run("candump", example("servo_axes.replies.txt"))[1].decode().splitlines(keepends=True)
    lines.insert(300, lines[299].split()[0] + " can0 1FF#00\n")
    put("machine.log", "".join(lines).encode())
    run("conform", "--cobench", recorded(), "--timeline", "run.html", example("servo_axes.txt"), "machine.log")
    content = json.loads(re.search(r'(?s)id="content">(.*?)</script>', file("run.html").decode()).group(1))
    assert [each[2] for each in others(content)] == [0x1FF]


def test_what_is_not_of_the_network_is_drawn_too():
    lines = run("candump", example("servo_axes.replies.txt"))[1].decode().splitlines(keepends=True)
    stamp = lines[300].split()[0]
    lines[301:301] = [f"{stamp} can0 18FEF100#0011\n", f"{stamp} can0 20000008#0000000000000000\n"]
    put("machine.log", "".join(lines).encode())
    status, _, faults = run("conform", "--cobench", recorded(), "--timeline", "run.html", example("servo_axes.txt"), "machine.log")
    assert status == 0 and not faults, faults
    content = json.loads(re.search(r'(?s)id="content">(.*?)</script>', file("run.html").decode()).group(1))
    foreign = [(identifier, size) for identifier, kind, lane, size, *_ in content["sorts"]
               if content["kinds"][kind] == "other" and lane == -1]
    assert foreign == [(0x18FEF100, 2), (0, 0)] and content["lanes"][-1][1] == "others", foreign
    assert others(content) == [], "it is of no run that could be compared"
