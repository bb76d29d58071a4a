"""`live` in a browser: the page follows the saves of a script. Skipped without Chromium."""
import contextlib
import os
import re

from helper import put
from live_opened import opened, text
from live_scene import HOLD, LONG, Scene, long_words

NEW = b"param 5 1017 0 50"
IS_PART = "live.items.get('run') && live.items.get('run').known === 999999"
PLACES = """JSON.stringify(['header', '#tabs', '#parts', '#tab-run', '.timeline .view', '.timeline .corner', '.timeline .lanes'].map(each =>
    (({ x, y }) => [x, y])(document.querySelector(each).getBoundingClientRect())))"""


def test_a_save_shows_the_new_value_and_marks_it():
    with opened() as live:
        page = live.page
        assert text(page, ".summary").startswith("Nothing is wrong. 2 of 2 nodes booted by ")
        page.value("live.tabs.choose(1), document.querySelector('.node').open = true")
        page.settle()
        live.save(b"param 5 1017 0 100", NEW)
        rows = page.value("[...document.querySelectorAll('.node[open] tr.new')].map(row => row.innerText.split('\\t'))")
        assert rows == [["1017h:00", "Producer heartbeat time", "50 (32h)", "100 (64h)"]], rows
        marks = page.value("[...document.querySelectorAll('.node mark')].map(each => each.textContent + each.nextSibling.textContent)")
        assert marks == ["ParameterValue=0x0032  was 0x0064"], marks
        assert text(page, "#tab-nodes .badge") == "1 changed" and text(page, ".node .tag") == "1 value changed"
        assert re.match(r"Up to date \d\d:\d\d:\d\d, [\d,]+ ms after the save\.", text(page, "#status")), text(page, "#status")
        page.value("live.parts[1].isChanged.checked = true, live.parts[1].filter()")
        assert page.value("[...document.querySelectorAll('.node')].map(each => each.hidden)") == [False, True]
        page.value("live.parts[1].isChanged.checked = false")
        live.save(b"set 5 6041 0 7", b"set 5 6041 0 9")
        assert page.value("document.querySelectorAll('.node mark').length") == 0, "marks are of the last save"


def test_the_timeline_stays_where_it_is_and_marks_what_is_new():
    with opened() as live:
        page = live.page
        page.value("live.tabs.choose(3), live.run.timeline.move(30000, 55000)")
        page.settle()
        assert page.value("live.run.timeline.trace.fresh.size") == 0
        live.save(b"set 5 6041 0 7", b"set 5 6041 0 9")
        assert page.value("[live.run.timeline.scale.from, live.run.timeline.scale.to]") == [30000, 55000]
        fresh = page.value("[...live.run.timeline.trace.fresh].map(frame => live.run.timeline.trace.text(frame))")
        assert fresh == ["flow: 6041h Statusword=0009h"] * 2, fresh
        assert text(page, "#tab-run .badge") == "2 changed"
        pink = page.value("""(() => { const view = live.run.timeline, lane = view.lanes.shown[1], y = AXIS + lane.top + lane.height - 3;
            const x = Math.round(view.scale.x(40110)), data = view.canvas.getContext('2d').getImageData(x - 3, y, 6, 1).data;
            return [...data].filter((each, n) => n % 4 === 0 && each > 200 && data[n + 1] < 90).length; })()""")
        assert pink > 0, "a line stands under the new frame"


@contextlib.contextmanager
def halved(**more):
    """A page with a part of its run, of which the rest waits until HOLD is taken away."""
    scene = Scene(long_words(), "long.txt", LONG)
    with opened(scene=scene, program=long_words(), **more) as live:
        live.page.value("live.tabs.choose(3)")
        live.save(b"param 5 2000 0 1", b"param 5 2000 0 3")
        live.before = live.page.value(PLACES)
        open(HOLD, "w").close()
        put("long.txt", LONG.replace(b"param 5 2000 0 1", b"param 5 2000 0 2"))
        live.page.wait(IS_PART)
        live.page.settle()
        yield live


def release(page):
    """Has the rest of the run come."""
    os.remove(HOLD)
    page.wait("live.items.get('run').known === live.items.get('run').end && live.items.get('status').state === 'well'")
    page.settle()


# Of the frames of node 5 before and behind the part: the heads of their tips, whether they are new, and their values.
TOLD = """[995005, 1005005].map(at => { const { trace } = live.run.timeline, frame = [...trace.time].indexOf(at);
    return [tellFrame(live.run.timeline, frame).head, trace.fresh.has(frame), trace.bytes(frame), trace.stateAt(1, at)]; })"""

# The colour of a frame of node 5 before and behind the part, as its blue above its red.
BLUES = """[505005, 1505005].map(at => { const view = live.run.timeline, lane = view.lanes.shown[1], x = Math.round(view.scale.x(at)) - .5;
    const y = AXIS + lane.top + view.lanes.rowTop(lane, lane.kinds[0]) + 5, ratio = devicePixelRatio;
    const [red, , blue] = view.canvas.getContext('2d').getImageData(x * ratio, y * ratio, 1, 1).data; return blue - red; })"""


def test_what_is_not_simulated_yet_is_pale_and_of_the_save_before():
    for size in ({"wide": 1280, "high": 800}, {"wide": 390, "high": 844, "touch": True, "dark": True}):
        with halved(**size) as live:
            page = live.page
            assert page.value(PLACES) == live.before, "nothing jumps"
            assert text(page, ".waits") == "simulating from 1,000 ms on; what is pale is of the save before"
            assert page.value("document.documentElement.scrollWidth") <= size["wide"]
            told = page.value(TOLD)
            assert told[0] == ["995.005 ms · PDO · pump", True, "0200", "pre-operational"], told
            assert told[1] == ["1,005.005 ms · PDO · pump · of the save before", False, "0300", ""], told
            page.value("live.run.timeline.showAll()")
            page.settle()
            assert page.value("[...document.querySelectorAll('.legend .state')].map(each => each.textContent)") == ["off", "pre-operational"]
            known, pale = page.value(BLUES)
            assert known > 2 * pale > 0, (known, pale)
            page.value("live.run.wait(false)")
            assert text(page, ".waits").startswith("not simulated from 1,000 ms on"), "where it isn't simulated, as cobench has ended"
            release(page)
            assert [each[0].endswith("before") for each in page.value(TOLD)] == [False, False] and page.value(TOLD)[1][2] == "0200"
            assert page.value("document.querySelector('.waits').hidden && !document.querySelector('.held')")
            assert page.value(PLACES) == live.before


def test_rows_of_the_save_before_are_told_apart():
    with halved() as live:
        page = live.page
        rows = """[...document.querySelectorAll('.frames tbody tr')].map(row =>
            [row.className, row.title, row.lastChild.lastChild.textContent])"""
        page.value("live.run.view(1), live.run.frames.text.value = 'pump', live.run.frames.filter()")
        page.settle()
        page.value("live.run.frames.scroller.scrollTop = 98 * 24")
        page.settle()
        page.settle()
        found = page.value(rows)
        assert ["new", "", "02 00"] in found and ["of-run", "of the save before", "03 00"] in found, found
        assert {row[2] for row in found if row[0] != "new"} == {"03 00"} and {row[2] for row in found if row[0] == "new"} == {"02 00"}
        release(page)
        assert {row[0] for row in page.value(rows)} == {"new"}, "all of them are of now"


def test_what_goes_by_the_whole_run_is_held():
    with halved() as live:
        page, booted = live.page, "[...document.querySelectorAll('.node')].map(each => each.querySelector('.booted').textContent)"
        before = ["configured at 20.005 ms", "configured at 20.006 ms"]
        assert page.value(booted) == before and page.value("document.body.classList.contains('held')")
        assert float(page.value("getComputedStyle(document.querySelector('.node .booted')).opacity")) < 1
        later = live.browser.page(1280, 800)
        later.open(live.address)
        later.wait(IS_PART)
        assert later.value(booted) == ["not known yet"] * 2, "a page that comes now has nothing of the save before"
        release(later)
        assert later.value(booted) == before


def test_frames_are_listed_and_filtered():
    with opened() as live:
        page = live.page
        page.value("live.tabs.choose(3), live.run.view(1)")
        page.settle()
        total = page.value("live.run.timeline.trace.count")
        assert text(page, ".frames .bar [role=status]") == f"{total} of {total} frames"
        page.value("live.run.frames.text.value = 'flow', live.run.frames.filter()")
        page.settle()
        rows = page.value("[...document.querySelectorAll('.frames tbody tr')].map(row => row.innerText.split('\\t').map(each => each.trim()))")
        assert len(rows) == 5 and rows[0][1:] == ["185", "PDO", "pump", "flow: 0000h (6041h Statusword)", "00 00"], rows
        live.save(b"set 5 6041 0 7", b"set 5 6041 0 9")
        assert page.value("document.querySelectorAll('.frames tbody tr').length") == 5, "the filter stays"
        assert page.value("document.querySelectorAll('.frames tbody tr.new').length") == 2
        page.value("live.run.frames.isNew.click()")
        page.settle()
        assert page.value("document.querySelectorAll('.frames tbody tr').length") == 2
        page.value("document.querySelector('.frames tbody tr').click()")
        page.settle()
        page.settle()
        assert text(page, ".tip").startswith("40.110 ms · PDO · pump"), text(page, ".tip")


def test_a_node_that_becomes_the_manager_has_one_lane_and_nobody_boots_it():
    """The lane of the manager that there was is struck through until the next save."""
    with opened() as live:
        page = live.page
        live.save(b"eds drive", b"version 3\neds drive")
        live.save(b"manager 127", b"manager 6")
        lanes = "live.run.timeline.trace.lanes.map(lane => [lane.key, lane.name, lane.title, lane.gone])"
        assert page.value(lanes) == [[6, "guard", "manager 6", False], [5, "pump", "node 5", False], [127, "manager", "node 127", True]]
        assert text(page, ".summary").startswith("Nothing is wrong. 1 of 1 node booted by ")
        page.value("live.tabs.choose(1)")
        page.settle()
        nodes = page.value("""[...document.querySelectorAll('.node')].map(node => [...node.querySelectorAll('.number, b, .state, .booted, .sheet')]
            .map(each => each.innerText.trim()).concat(node.classList.contains('unconfigured')))""")
        assert nodes[1] == ["6", "guard", "operational", "the manager", "drive", False], nodes
        assert nodes[0][:3] == ["5", "pump", "operational"] and nodes[0][3].startswith("configured at ") and nodes[0][4:] == ["drive", False], nodes
        live.save(b"set 5 6041 0 7", b"set 5 6041 0 9")
        assert page.value(lanes) == [[6, "guard", "manager 6", False], [5, "pump", "node 5", False]]
        live.save(b"manager 6", b"manager 127")
        assert "not configured" not in page.value("document.querySelector('.nodes').innerText") and page.value(lanes)[0][:3] == [127, "manager", "node 127"]


def test_what_is_wrong_is_told_with_its_line():
    with opened() as live:
        page = live.page
        live.save(b"param 5 6080 0 4000", b"param 5 6080 0 7000\nparam 9 1017 0 1")
        found = page.value("[...document.querySelectorAll('.findings li.error.new')].map(each => each.innerText)")
        assert len(found) == 2 and "network.txt:8" in found[1] and "node 9 isn't there" in found[1], found
        assert "network.txt:7" in found[0] and "7000 is above the HighLimit 6000" in found[0] and "E03" in found[0]
        assert text(page, ".summary").startswith("2 errors, no warnings.") and text(page, "#tab-wrong .badge") == "2"
        live.save(b"param 5 6080 0 7000\nparam 9 1017 0 1", b"param 5 6080 0 4000")
        assert text(page, ".summary").startswith("Nothing is wrong.")


def test_texts_of_a_script_cannot_script_the_page():
    with opened() as live:
        page = live.page
        live.save(b"horizon", b"param 5 2010 0 <img src=x onerror=document.title='hit'></script><script>document.title='hit'</script>\nhorizon")
        page.value("live.tabs.choose(1), [...document.querySelectorAll('details')].forEach(each => { each.open = true; })")
        page.settle()
        page.value("live.tabs.choose(3), live.run.view(1)")
        page.settle()
        assert page.value("document.title") == "network.txt · cobench live"
        assert page.value("document.querySelectorAll('img, script:not(:last-of-type):not([type])').length") == 0
        assert "<img src=x" in page.value("document.querySelector('.nodes').textContent")


def test_nothing_jumps_on_a_save():
    with opened() as live:
        page = live.page
        page.value("live.tabs.choose(3)")
        page.settle()
        live.save(b"set 5 6041 0 7", b"set 5 6041 0 9")
        before = page.value(PLACES)
        live.save(b"set 5 6041 0 9", b"set 5 6041 0 7")
        assert page.value(PLACES) == before
        assert page.value("Math.abs(live.run.timeline.scroller.scrollTop)") == 0


def test_the_page_fits_from_390_to_2560_pixels():
    with opened() as live:
        for wide, high in ((390, 844), (768, 1024), (960, 1000), (1280, 800), (2560, 1400)):
            live.page.resize(wide, high)
            live.page.settle()
            for number in range(4):
                live.page.value(f"live.tabs.choose({number})")
                live.page.settle()
                assert live.page.value("document.documentElement.scrollWidth") <= wide, (wide, number)
            beside = live.page.value("!document.getElementById('part-run').hidden && !document.getElementById('part-wrong').hidden")
            live.page.value("live.tabs.choose(0)")
            assert live.page.value("!document.getElementById('part-run').hidden") == (wide >= 1500 or wide >= 700 and high >= 880), beside


def test_an_empty_script_and_an_empty_run_are_shown():
    with opened() as live:
        page = live.page
        page.value("live.tabs.choose(3)")
        live.save(b"horizon 60000", b"horizon 0")
        assert page.value("live.run.timeline.trace.count") == 0
        saves = page.value("live.items.get('ledger').length")
        put(live.scene.script, b"")
        page.wait(f"live.items.get('ledger').length > {saves}")
        page.settle()
        lanes = page.value("live.run.timeline.trace.lanes.map(lane => lane.name + (lane.gone ? ' gone' : ''))")
        assert lanes == ["manager", "pump gone", "guard gone"], lanes
        page.value("live.tabs.choose(1)")
        page.settle()
        assert "There are no nodes." in text(page, "#part-nodes")


def test_parts_are_chosen_by_keys_and_have_roles():
    with opened() as live:
        page = live.page
        page.value("document.getElementById('tab-wrong').focus()")
        page.key("ArrowRight", 39)
        assert page.value("document.activeElement.id") == "tab-nodes" and page.value("document.getElementById('part-wrong').hidden")
        page.value("document.activeElement.blur()")
        page.key("3")
        assert page.value("document.getElementById('tab-messages').getAttribute('aria-selected')") == "true"
        nodes = page.ask("Accessibility.getFullAXTree")["nodes"]
        named = {(each["role"]["value"], each.get("name", {}).get("value", "")) for each in nodes if not each["ignored"]}
        assert ("heading", "network.txt") in named and ("tablist", "parts of the page") in named, sorted(named)
        assert len([role for role, _ in named if role == "tab"]) == 4 and any(role == "tabpanel" for role, _ in named)


def test_files_can_be_saved():
    with opened() as live:
        page = live.page
        page.value("live.tabs.choose(1), document.querySelector('.node').open = true")
        page.settle()
        links = page.value("[...document.querySelectorAll('.node[open] a')].map(each => [each.getAttribute('href'), each.download])")
        word = live.address.partition("/?")[2]
        assert word and links == [[f"files/5.dcf?{word}", "5_pump.dcf"], [f"files/5.bin?{word}", "5_pump.bin"]], links
        dcf = page.value(f"fetch('files/5.dcf?{word}').then(answer => answer.text())")
        assert dcf.startswith("[1000]\n") and "ParameterValue=0x0064\n" in dcf and dcf.endswith("Baudrate=1000\n")
        bytes_ = page.value(f"fetch('files/5.bin?{word}').then(answer => answer.arrayBuffer()).then(data => [...new Uint8Array(data)])")
        assert bytes_[:4] == [10, 0, 0, 0] or bytes_[1:4] == [0, 0, 0], bytes_[:8]


def test_a_page_that_comes_later_has_all_of_it():
    with opened() as live:
        live.save(b"param 5 1017 0 100", NEW)
        later = live.another(390, 844, touch=True, dark=True)
        for name in ("'wrong'", "'node/5'", "'node/6'", "'table/messages'", "'run'", "'window/3'"):
            assert later.value(f"JSON.stringify(live.items.get({name}))") == live.page.value(f"JSON.stringify(live.items.get({name}))"), name
        assert not later.faults()


def test_the_page_says_that_the_program_is_gone():
    with opened() as live:
        live.close()
        live.page.wait("document.getElementById('status').className === 'fault'")
        assert "has ended, or can't be reached" in text(live.page, "#status")
        assert text(live.page, ".summary").startswith("Nothing is wrong."), "what it said last stays"
        live.browser.events.clear()
