"""`timeline` in a browser: where things stand, and what wheel, mouse, fingers and keys do. Skipped without Chromium."""
import contextlib
import math
import random
import re
import struct

from browser import Browser
from cobench_tools import data_types, device, wire_bits
from helper import example, put, run

CTRL, SHIFT = 2, 8

# The pixels of a row of the picture that have a colour of the design.
COLUMNS = """((y, name) => {
  const probe = new OffscreenCanvas(1, 1).getContext("2d"), canvas = timeline.canvas;
  probe.fillStyle = timeline.colours[name];
  probe.fillRect(0, 0, 1, 1);
  const wanted = probe.getImageData(0, 0, 1, 1).data, row = canvas.getContext("2d").getImageData(0, y, canvas.width, 1).data;
  return [...Array(canvas.width).keys()].filter(x => [0, 1, 2].every(part => Math.abs(row[4 * x + part] - wanted[part]) < 3));
})"""


@contextlib.contextmanager
def opened(path, wide=1280, high=800, address="", **more):
    """A page of the timeline in a browser; whatever went wrong in it fails the test."""
    with Browser() as browser:
        page = browser.page(wide, high, **more)
        page.open_file(path + address)
        yield page
        assert not page.faults(), page.faults()


def drawing(name, *words, given=b""):
    """The file of a drawing."""
    status, page, faults = run("timeline", *words, given=given)
    assert status == 0, faults
    return put(name, page)


def servo():
    return drawing("servo.html", "--script", example("servo_axes.txt"), example("servo_axes.replies.txt"))


def many_nodes(count=126):
    """The trace of many nodes with heartbeats: node 7 has an emergency, and node 90 fails to boot."""
    lines = [(55 * node, f"{0x700 + node:03X} [1] 00") for node in range(1, count + 1)]
    for beat in range(1, 20):
        lines += [(100000 * beat + 150 * node, f"{0x700 + node:03X} [1] 7F") for node in range(1, count + 1)]
        lines += [(100000 * beat + 50000 + 200 * node, f"{0x180 + node:03X} [2] {beat:02X} 00") for node in range(1, 40)]
    lines += [(1055000, "087 [8] 30 81 11 00 00 00 00 00"), (505000, "note 90 failed timeout")]
    return "".join(f"{time:010} {line}\n" for time, line in sorted(lines)).encode()


def test_the_page_counts_stuff_bits():
    """A run of version 3, whose first frame starts at 0: by its length the page knows it, and each frame has its own slot."""
    chance = random.Random(3)
    frames = [(chance.randrange(0x780), bytes(chance.choice((0, 255, chance.randrange(256))) for _ in range(chance.randrange(9))))
              for _ in range(200)]
    lines, time = [], 0
    for identifier, data in frames:
        time += 2 * wire_bits.exact_bits(identifier, data)
        lines.append(f"{time:010} {identifier:03X} [{len(data)}]{''.join(f' {byte:02X}' for byte in data)}\n")
    with opened(drawing("full.html", "-", given="".join(lines).encode())) as page:
        assert page.value("[timeline.trace.bit, timeline.trace.isStuffed]") == [2, True]
        slots = page.value("[...Array(timeline.trace.count).keys()].map(each => timeline.trace.slot(each))")
        assert slots == [2 * wire_bits.exact_bits(*frame) for frame in frames], slots
    with opened(servo()) as page:
        assert page.value("timeline.trace.isStuffed") is False


def network():
    return drawing("network.html", "-", given=many_nodes())


def columns(page, y, colour):
    return page.value(f"{COLUMNS}({y}, '{colour}')")


def span(page):
    return page.value("[timeline.scale.from, timeline.scale.to]")


def scroll(page):
    return page.value("timeline.scroller.scrollTop")


def moment_at(ticks, times, x):
    """The moment that stands at a pixel, by the ticks of the axis alone."""
    return times[0] + (x - ticks[0]) / (ticks[-1] - ticks[0]) * (times[-1] - times[0])


def is_near(time, wanted, page):
    """A moment read off the picture is right to two pixels and a half: flags and gaps stand at these places too."""
    return abs(time - wanted) <= 2.5 * page.value("timeline.scale.span / timeline.scale.plot")


def agrees(page):
    """Axis, lanes and bars of servo_axes have the same moments at the same pixels, and nothing is stretched."""
    sizes = page.value("[timeline.canvas.width, timeline.canvas.clientWidth, timeline.canvas.height, timeline.canvas.clientHeight]")
    ratio = page.value("devicePixelRatio")
    assert sizes[0] == sizes[1] * ratio and sizes[2] == sizes[3] * ratio, sizes
    room = page.value("[timeline.scroller.clientWidth - timeline.corner.offsetWidth, timeline.scroller.clientHeight]")
    assert room == [sizes[1], sizes[3]], (room, sizes)
    ticks, times = columns(page, 25, "edge"), page.value("timeline.scale.ticks().at")
    assert len(ticks) == len(times) > 1, (ticks, times)
    top = page.value("AXIS + timeline.lanes.shown[2].top")
    off = sorted(x for down in range(20, 28) for x in columns(page, top + down, "off"))      # it is hatched
    assert is_near(moment_at(ticks, times, off[0]), 120000, page) and is_near(moment_at(ticks, times, off[-1] + 1), 280000, page)
    tall = columns(page, page.value("timeline.height - timeline.bars() + 40"), "sdo")
    assert is_near(moment_at(ticks, times, tall[0]), 0, page)
    assert is_near(moment_at(ticks, times, tall[-1] + 1), 290000, page)


def test_axis_lanes_and_bars_agree_on_load_and_after_a_resize():
    with opened(servo()) as page:
        agrees(page)
        assert page.value("timeline.lanes.row") >= 26
        for wide, high in ((900, 700), (390, 844), (1920, 1000), (1280, 500)):
            page.resize(wide, high)
            page.settle()
            agrees(page)
            assert page.value("document.documentElement.scrollWidth") <= wide


def test_axis_lanes_and_bars_agree_on_a_phone():
    with opened(servo(), 390, 844, touch=True) as page:
        agrees(page)
        assert page.value("document.documentElement.scrollWidth") <= 390
        assert page.value("timeline.lanes.row") >= 20


def test_axis_and_lanes_agree_beside_a_scrollbar():
    with opened(network()) as page:
        assert page.value("timeline.scroller.scrollHeight > timeline.scroller.clientHeight")
        assert page.value("timeline.canvas.width + timeline.corner.offsetWidth === timeline.scroller.clientWidth")
        ticks, times = columns(page, 25, "edge"), page.value("timeline.scale.ticks().at")
        beats = columns(page, page.value("AXIS + timeline.lanes.shown[60].top - timeline.scrolled() + 20"), "heartbeat")
        assert not beats, "lane 60 is out of view"
        page.value("timeline.scrollTo(timeline.lanes.shown[60].top)")
        page.settle()
        tops = page.value("[timeline.scroller, timeline.corner, timeline.canvas].map(each => each.getBoundingClientRect().top)")
        assert tops[1] == tops[2] == tops[0] + 1, tops
        beats = columns(page, page.value("AXIS + timeline.lanes.shown[60].top - timeline.scrolled() + 20"), "heartbeat")
        assert is_near(moment_at(ticks, times, beats[-1]), 1900000 + 150 * 60, page), beats


def test_emergencies_and_failed_boots_stand_out_among_many_lanes():
    with opened(network()) as page:
        assert page.value("timeline.lanes.compact")
        for node, time in ((7, 1055000), (90, 505000)):
            page.value(f"timeline.scrollTo(timeline.lanes.shown[{node}].top)")
            page.settle()
            y = page.value(f"AXIS + timeline.lanes.shown[{node}].top - timeline.scrolled() + 3")
            red = columns(page, y, "wrong")
            assert len(red) > 60 and red[0] - 8 <= page.value(f"timeline.scale.x({time})") <= red[-1] + 8, red
        assert page.value("[...document.querySelectorAll('.alarm')].map(each => each.parentNode.title)") == ["node 7 ", "node 90 "]
        assert page.value("document.querySelector('.pop summary').textContent") == "2 alarms"
        page.value("timeline.scrollTo(0)")
        for words in ("node 90\nfailed timeout", "node 7\nEMCY 8130h heartbeat error, error register 11h"):
            page.key("n")
            page.settle()
            assert words in page.value("document.querySelector('.tip:not([hidden])').innerText"), words


def test_kinds_in_one_pixel_share_the_row():
    with opened(network()) as page:
        x = page.value("Math.round(timeline.scale.x(500000 + 150 * 3))")
        page.value("timeline.scrollTo(0)")
        top = page.value("AXIS + timeline.lanes.shown[3].top + timeline.lanes.rowTop(timeline.lanes.shown[3], 0)")
        row = page.value("timeline.lanes.row")
        kinds = {name for name in ("heartbeat", "pdo") for y in range(int(top), int(top + row))
                 if x in columns(page, y, name) or x - 1 in columns(page, y, name)}
        assert kinds == {"heartbeat"}, kinds
        page.resize(390, 844)
        page.value("timeline.scale.setEnd(4e8), timeline.scale.showAll(), timeline.drawNow()")
        kinds = {name for name in ("heartbeat", "pdo") for y in range(int(top), int(top + row)) if columns(page, y, name)}
        assert kinds == {"heartbeat", "pdo"}, kinds


def test_the_wheel_scrolls_and_zooms_with_ctrl():
    with opened(network()) as page:
        whole = span(page)
        page.wheel(700, 400, 200)
        page.wait("timeline.scroller.scrollTop > 0")
        assert span(page) == whole
        down = scroll(page)
        at = page.value("timeline.scale.time(700 - timeline.corner.offsetWidth)")
        page.wheel(700, 400, -120, keys=CTRL)
        page.wait(f"timeline.scale.span < {whole[1]}")
        assert scroll(page) == down
        assert abs(page.value("timeline.scale.time(700 - timeline.corner.offsetWidth)") - at) < 5000
        before = span(page)
        page.wheel(700, 400, 100, keys=SHIFT)
        page.wait(f"timeline.scale.from > {before[0]}")
        assert abs(page.value("timeline.scale.span") - (before[1] - before[0])) < 1


def test_keys_page_and_search():
    with opened(network()) as page:
        room = page.value("timeline.room()")
        page.key("PageDown", 34)
        assert room * .8 < scroll(page) <= room, (room, scroll(page))
        page.key("End", 35)
        assert scroll(page) == page.value("timeline.scroller.scrollHeight - timeline.scroller.clientHeight")
        page.key("Home", 36)
        assert scroll(page) == 0
        page.key("ArrowDown", 40)
        assert scroll(page) > 0
        page.key("/", 191)
        page.type("node 12")
        names = page.value("timeline.lanes.shown.map(lane => lane.name)")
        assert names == ["node 12", "node 120", "node 121", "node 122", "node 123", "node 124", "node 125", "node 126"], names
        assert not page.value("timeline.lanes.compact")
        page.key("Escape", 27)
        assert page.value("timeline.lanes.shown.length") == 127


def test_keys_go_through_events_and_frames():
    with opened(servo()) as page:
        told = []
        for _ in range(3):
            page.key("n")
            told.append(page.value("timeline.voice.textContent"))
        assert told[0] == "8.491 ms · noted by the manager · x_axis, configured", told
        assert told[2] == "25.010 ms · noted by the manager · motion, configured", told
        page.key("p")
        assert page.value("timeline.voice.textContent") == "16.592 ms · noted by the manager · y_axis, configured"
        page.key(".")
        assert page.value("timeline.voice.textContent").startswith("16.750 ms · PDO · y_axis, y_actual, 6041h Statusword=0250h")
        page.value("timeline.scale.move(0, 5000)")
        page.key("n")
        assert 0 < page.value("timeline.scale.from") < 25275 < page.value("timeline.scale.to")


def test_pointing_tells_and_dragging_moves():
    with opened(servo()) as page:
        box = page.value("(({left, top}) => [left, top])(timeline.canvas.getBoundingClientRect())")
        lane = page.value("timeline.lanes.shown[1].top + timeline.lanes.rowTop(timeline.lanes.shown[1], 3) + 10 + AXIS")
        x = page.value("timeline.scale.x(70142)")
        page.point(box[0] + x, box[1] + lane)
        tip = page.value("document.querySelector('.tip').innerText")
        assert tip.split("\n") == ["70.142 ms · PDO · x_axis", "x_actual", "6041h Statusword=0637h",
                                   "6064h Position actual value [inc]=25000", "181 [6] 37 06 A8 61 00 00"], tip
        page.value("timeline.zoom(.5)")
        before = span(page)
        page.drag(700, 300, 600, 300)
        micros = page.value("100 * timeline.scale.span / timeline.scale.plot")
        assert abs(span(page)[0] - before[0] - micros) < 2, (before, span(page))
        page.point(box[0] + page.value("timeline.scale.x(200142)"), box[1] + lane)
        assert page.value("document.querySelector('.tip').innerText").startswith("200.142 ms · PDO"), "tips come again"


def test_fingers_move_zoom_and_tell():
    with opened(servo(), 390, 844, touch=True) as page:
        page.value("timeline.zoom(.25)")
        before = span(page)
        page.fingers([(300, 400), (200, 400)])
        moved = span(page)[0] - before[0]
        micros = page.value("100 * timeline.scale.span / timeline.scale.plot")
        assert abs(moved - micros) < .15 * micros, (moved, micros)
        assert page.value("timeline.tip.isShown") is False
        page.fingers([(310, 400), (210, 402)])
        assert span(page)[0] > before[0] + 1.7 * moved, "the second swipe moves as the first"
        left, top = page.value("(({left, top}) => [left, top])(timeline.canvas.getBoundingClientRect())")
        lane = page.value("timeline.lanes.shown[1].top + timeline.lanes.rowTop(timeline.lanes.shown[1], 3) + 10 + AXIS")
        x = page.value("timeline.scale.x(nextTime = timeline.trace.time[nextFrame(timeline, timeline.lanes.shown[1], timeline.scale.from + timeline.scale.span / 4, 1)])")
        page.fingers([(left + x, top + lane)])
        assert page.value("timeline.tip.isShown"), "a tap tells after swipes"
        size = page.value("timeline.scale.span")
        at = page.value(f"timeline.scale.time({250 - left})")
        page.fingers([(220, 400), (180, 400)], [(280, 400), (320, 400)])
        assert abs(page.value("timeline.scale.span") / size - 60 / 140) < .08, "two fingers zoom"
        assert abs(page.value(f"timeline.scale.time({250 - left})") - at) < .05 * size
        assert page.value("visualViewport.scale") == 1


def test_a_finger_scrolls_many_lanes():
    with opened(network(), 390, 844, touch=True) as page:
        whole = span(page)
        page.fingers([(250, 600), (250, 300)], steps=12)
        page.wait("timeline.scroller.scrollTop > 100")
        assert span(page) == whole


def test_the_address_has_the_part_that_is_shown():
    with opened(servo(), address="#120000-280000") as page:
        assert span(page) == [120000, 280000]
        page.value("timeline.move(50000, 90000)")
        page.wait("location.hash === '#50000-90000'")


def test_the_page_says_what_it_cannot_know_without_a_script():
    with opened(network()) as page:
        assert page.value("document.getElementById('unknown').offsetHeight") > 0
    with opened(servo()) as page:
        assert page.value("document.getElementById('unknown').offsetHeight") == 0


def test_the_page_is_dark_where_the_system_is():
    for dark in (False, True):
        with opened(servo(), dark=dark) as page:
            red, green, blue = page.value("[...timeline.canvas.getContext('2d').getImageData(600, 40, 1, 1).data].slice(0, 3)")
            assert (red + green + blue < 150) == dark, (red, green, blue)


def test_the_page_can_be_read_aloud():
    with opened(servo()) as page:
        assert page.value("timeline.canvas.getAttribute('aria-label')").startswith("4 lanes, 428 frames, 1 alarm in ")
        nodes = page.ask("Accessibility.getFullAXTree")["nodes"]
        named = {(each["role"]["value"], each.get("name", {}).get("value", "")) for each in nodes if not each["ignored"]}
        for role, name in (("heading", "servo_axes.txt"), ("button", "zoom in"), ("button", "zoom out"), ("button", "show the whole run"),
                           ("searchbox", "search for a node, a message or an identifier"), ("toolbar", "timeline")):
            assert (role, name) in named, (role, name, sorted(named))
        pressed = [each for each in nodes if each.get("name", {}).get("value", "").startswith("EMCY") and each["role"]["value"] == "button"]
        assert pressed, "kinds are buttons"


def test_chips_hide_kinds():
    with opened(servo()) as page:
        y = page.value("AXIS + timeline.lanes.shown[0].top + timeline.lanes.rowTop(timeline.lanes.shown[0], 4) + 10")
        assert columns(page, y, "sdo")
        page.value("[...document.querySelectorAll('button.chip')].find(each => each.innerText.startsWith('SDO')).click()")
        page.settle()
        assert not columns(page, y, "sdo")


def test_the_key_of_the_help_opens_it():
    with opened(servo()) as page:
        page.key("?")
        assert page.value("document.querySelector('.pop[open]').innerText").count("zoom") > 1
        page.key("Escape", 27)
        assert page.value("document.querySelectorAll('.pop[open]').length") == 0


def test_the_page_reads_values_as_explain_does():
    chance = random.Random(62)
    kinds = {0: "unsigned", 1: "bit", **dict.fromkeys(data_types.SIGNED, "signed"), **dict.fromkeys(data_types.UNSIGNED, "unsigned"), **dict.fromkeys(data_types.REALS, "real")}
    cases = []
    for _ in range(400):
        data, kind = bytes(chance.choices((0, 0x7F, 0x80, 0xFF, chance.randrange(256)), k=8)), chance.choice(list(kinds))
        bits = data_types.BITS.get(kind) or chance.randint(1, 64)
        start = chance.randint(0, 64 - bits)
        cases.append((data.hex(), start, bits, kinds[kind], device.value_at(data, start, bits, kind)))
    for number in (0.0, -0.0, 0.1, 2.5, 1e15, 1e16, -1e21, 1e-4, 1e-5, 2.0**-96, 2.0**87, 2.0**90, -2.0**90, 1e-45, math.inf, -math.inf, math.nan):
        for kind, code in ((data_types.REAL32, "<f"), (data_types.REAL64, "<d")):
            data, bits = struct.pack(code, number), data_types.REALS[kind]
            cases.append((data.hex(), 0, bits, "real", device.value_at(data, 0, bits, kind)))
    with opened(servo()) as page:
        found = page.value(f"{[list(case) for case in cases]}.map(([data, start, bits, form]) => valueAt(littleEndian(data), start, bits, form))")
        for case, value in zip(cases, found):
            assert case[4] == value, (case, value)
        texts = page.value("[...Array(timeline.trace.count).keys()].map(frame => timeline.trace.text(frame))")
    explained = run("explain", "--names", example("servo_axes.txt"), example("servo_axes.replies.txt"))[1].decode().splitlines()
    expected = [values_first(line[15:]) for line in explained if line[11:15] != "note"]
    assert texts == expected, [each for each in zip(texts, expected) if each[0] != each[1]]


def values_first(said):
    """What is said of an SDO frame with the value before the entry's name; nothing else has an entry behind the node."""
    return re.sub(r"^(\w+ [0-9A-F]{4}h:[0-9A-F]{2}) (.+) (:= .*|= .*|written|read|ready for segments|segment .*)$", r"\1 \3 (\2)", said)
