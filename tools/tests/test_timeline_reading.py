"""What a timeline is read by: the load of the bus, cursors, the search, values over time, and paper. Skipped without Chromium."""
import base64
import csv
import io
import re

from helper import example, run
from test_timeline_page import columns, opened, servo

SCRIPT, REPLIES = example("servo_axes.txt"), example("servo_axes.replies.txt")


def frames():
    """The frames of the kept trace: microsecond, identifier and number of bytes."""
    lines = [line.split() for line in run("candump", "--start", "0", REPLIES)[1].decode().splitlines()]
    return [(round(float(stamp[1:-1]) * 1e6), int(rest[:3], 16), len(rest[4:]) // 2) for stamp, _, rest in lines]


def times_of(identifier):
    return [time for time, each, _ in frames() if each == identifier]


def test_the_bars_are_the_load_of_the_bus_in_per_cent():
    # At 1 Mbit/s a frame of n bytes has the bus for 47 + 8 n microseconds before the moment at which it is there whole.
    busy = [0.0] * 34
    for time, _, size in frames():
        for micro in range(time - 47 - 8 * size, time):
            busy[micro // 10_000] += 1
    with opened(servo()) as page:
        found = page.value("Array.from({ length: timeline.trace.steps }, (_, step) => timeline.busy(step))")
        assert len(found) == 34 and all(abs(one - other / 100) < 1e-6 for one, other in zip(found, busy)), list(zip(found, busy))
        assert page.value("[timeline.foot.innerText.split('\\n')[0], timeline.most.textContent]") == ["bus load in each 10 ms", "100 %"]
        page.value("timeline.toggle(timeline.trace.kinds.indexOf('SDO'), false), timeline.move(40000, 200000)")
        page.settle()
        most = max(each / 100 for each in busy[4:21])
        assert page.value("timeline.most.textContent") == f"{most:.1f} %"


def test_two_cursors_have_the_time_between_them():
    with opened(servo()) as page:
        page.value("timeline.move(95000, 140000)")
        page.settle()
        box = page.value("(({left, top}) => [left, top])(timeline.canvas.getBoundingClientRect())")
        row = page.value("AXIS + timeline.lanes.shown[0].top + timeline.lanes.rowTop(timeline.lanes.shown[0], 1) + 8")
        first, second = [time for time in times_of(0x080) if 95_000 < time < 140_000][:2]
        for time, key in ((first, "a"), (second, "b")):
            page.point(box[0] + page.value(f"timeline.scale.x({time})") + 2, box[1] + row)
            page.key(key)
        rate = f"{1e6 / (second - first):.4g}"
        assert page.value("document.querySelector('.between').textContent") == f"{(second - first) / 1000:.3f} ms between ({rate} Hz)"
        assert columns(page, row + 200, "accent"), "the cursors are drawn"
        page.key("c")
        assert page.value("document.querySelector('.between').textContent") == "" and not columns(page, row + 200, "accent")


def search(page, text):
    page.value(f"timeline.bar.search.value = '{text}', timeline.search('{text}')")
    page.settle()
    return page.value("[timeline.lanes.shown.map(lane => lane.name).join(' '), timeline.bar.count.textContent]")


def test_the_search_finds_identifiers_and_messages():
    with opened(servo()) as page:
        assert search(page, "x_axis") == ["x_axis", "1 of 4"]
        assert search(page, "181h") == ["x_axis", f"{len(times_of(0x181))} frames"]
        page.value("timeline.bar.search.focus()")
        page.key("Enter", 13)
        assert page.value("timeline.told.time") == times_of(0x181)[0]
        page.key(".")
        assert page.value("timeline.told.time") == times_of(0x181)[1], "the next one of those that were found"
        y = page.value("AXIS + timeline.lanes.shown[0].top + timeline.lanes.rowTop(timeline.lanes.shown[0], 4) + 8")
        assert not columns(page, y, "sdo"), "other frames of the lane aren't drawn"
        assert search(page, "target") == ["motion", f"{len(times_of(0x28A))} frames"]
        assert search(page, "0x701")[1] == f"{len(times_of(0x701))} frames" and search(page, "no such") == ["", "0 of 4"]
        assert search(page, "") == ["manager x_axis y_axis motion", ""] and columns(page, page.value("AXIS + timeline.lanes.shown[1].top + "
            "timeline.lanes.rowTop(timeline.lanes.shown[1], 4) + 8"), "sdo")


def test_values_of_signals_are_drawn_as_steps():
    rows = list(csv.DictReader(io.StringIO(run("explain", "--signals", SCRIPT, REPLIES)[1].decode())))
    wanted = [(int(row["time_us"]), int(row["value"])) for row in rows if row["message"] == "x_actual" and row["entry"] == "6064h"]
    with opened(servo()) as page:
        page.value("timeline.bar.signals.element.open = true")
        page.wait("document.querySelectorAll('.choice').length > 5")
        page.value("[...document.querySelectorAll('.choice')].find(each => each.innerText.includes('6064h') && each.innerText.includes('x_actual'))"
                   ".querySelector('input').click()")
        page.settle()
        name, title, unit = page.value("(({ name, title, signal }) => [name, title, signal.unit])(timeline.lanes.shown[4])")
        assert (name, title, unit) == ("6064h Position actual value", "x_actual", "inc")
        assert page.value("(({ time, value }) => time.map((at, n) => [at, value[n]]))(timeline.lanes.shown[4].signal.points)") == [list(each) for each in wanted]
        time, value = next(each for each in wanted if each[1] != wanted[0][1])
        told = page.value(f"(lane => [tellSignal(timeline, lane, {time - 1}).words, tellSignal(timeline, lane, {time + 1}).words])(timeline.lanes.shown[4])")
        assert told == [f"6064h Position actual value = {each:,} inc" for each in (wanted[0][1], value)], told
        top, high = page.value("[AXIS + timeline.lanes.shown[4].top, timeline.lanes.shown[4].height]")
        x = page.value(f"Math.round(timeline.scale.x({time}))")
        drawn = {y: columns(page, y, "pdo") for y in range(int(top), int(top + high))}
        above, below = ([y for y, found in drawn.items() if min(found, default=9999) < x - 3], [y for y, found in drawn.items() if max(found, default=0) > x + 3])
        assert above and below and set(above).isdisjoint(below), "it steps from one value to the other"


def printed(page):
    """What is printed: the captions of the pieces."""
    page.value("dispatchEvent(new Event('beforeprint'))")
    page.ask("Emulation.setEmulatedMedia", media="print")
    page.settle()
    found = page.value("[...document.querySelectorAll('.printed figure')].map(each => each.innerText)")
    assert page.value("getComputedStyle(document.querySelector('main')).display") == "none", "nothing stands fixed on each page"
    assert page.value("document.documentElement.scrollWidth <= innerWidth")
    page.ask("Emulation.setEmulatedMedia", media="")
    page.value("dispatchEvent(new Event('afterprint'))")
    return found


def pages_of(page):
    """How many pages of A4 it takes."""
    data = base64.b64decode(page.ask("Page.printToPDF", paperWidth=8.27, paperHeight=11.69)["data"])
    return len(re.findall(rb"/Type\s*/Page[^s]", data))


def test_all_of_the_run_is_printed():
    with opened(servo(), dark=True) as page:
        assert printed(page) == ["servo_axes.txt: 0 to 330 ms"] and pages_of(page) == 1
        page.value("timeline.move(120000, 170000)")
        assert printed(page) == [f"servo_axes.txt: {at} to {min(at + 50, 330)} ms" for at in range(0, 330, 50)] and pages_of(page) > 1
        page.value("timeline.move(120000, 120300)")
        assert 59 <= len(printed(page)) <= 61
        assert page.value("document.querySelectorAll('.printed').length") == 0
