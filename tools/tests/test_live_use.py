"""The page of `live` as it is used: by keyboard, in windows of all sizes, by its address, with an editor, with a broken save."""
import os
import re
import time

from browser import Browser
from helper import file, put
from live_opened import Opened, opened, text, texts
from live_scene import FOLDER, Scene, wait_until

SIZES = (390, 844), (960, 1000), (1280, 800), (2560, 1400)
FOCUSED = "(each => each.id || each.className || each.textContent)(document.activeElement)"


def test_wrong_and_run_stand_together_at_960_by_1000():
    with opened(wide=960, high=1000) as live:
        box = "(box => [box.top, box.bottom, box.width])(document.getElementById('part-{}').getBoundingClientRect())"
        boxes = [live.page.value(box.format(name)) for name in ("wrong", "run")]
        assert 0 < boxes[0][1] - boxes[0][0] and boxes[0][1] <= boxes[1][0] and boxes[1][1] <= 1000 and boxes[1][2] == 960, boxes
        assert live.page.value("live.run.timeline.room()") > 250, "the lanes have room"
        live.save(b"set 5 6041 0 7", b"set 5 6041 0 9")
        assert text(live.page, ".run .tag") == "2 changed", "the run has no tab that could have a badge"


def test_what_cannot_be_read_dims_the_page_and_says_of_when_it_is():
    with opened() as live:
        page = live.page
        clock = page.value("live.items.get('ledger')[0].clock")
        whole = file(FOLDER, "network.txt")
        live.fail(b"\0\0", "this is no text")
        assert text(page, "#status") == f"network.txt: this is no text; this is what it said last, at {clock}"
        assert float(page.value("getComputedStyle(document.getElementById('parts')).opacity")) < .6
        assert page.value("document.title") == "not up to date · network.txt"
        live.fail(whole + b"eds other 12\n[1000]\n", "eds other")
        assert page.value("document.body.classList.contains('stale')")
        saves = page.value("live.items.get('ledger').length")
        put("network.txt", whole.replace(b"set 5 6041 0 7", b"set 5 6041 0 9"))
        page.wait(f"live.items.get('ledger').length > {saves}")
        page.settle()
        assert page.value("getComputedStyle(document.getElementById('parts')).opacity") == "1"
        assert text(page, "#status").startswith("Up to date")


def test_findings_are_accepted_as_by_check():
    wrong = file(FOLDER, "network.txt").replace(b"param 5 6080 0 4000", b"param 5 6080 0 7000\nparam 9 1017 0 1")
    scene = Scene(script="wrong.txt", text=wrong)
    put("accepted.txt", b"# of the vendor\nE03 param 5\n")
    with opened(scene=scene, asked=("--allow", "refused param 9", "--allow-from", "accepted.txt")) as live:
        page = live.page
        assert text(page, ".summary").startswith("Nothing is wrong.") and text(page, "#tab-wrong .badge") == "✓"
        assert text(page, ".accepted summary") == "2 accepted, by --allow" and page.value("document.title") == "wrong.txt · cobench live"
        put("accepted.txt", b"# of the vendor\n")
        page.wait("document.title === '1 error · wrong.txt'")
        assert text(page, ".accepted summary") == "1 accepted, by --allow", "the file is followed"


def test_the_line_of_a_finding_is_copied():
    with opened() as live:
        page = live.page
        live.browser.ask("Browser.grantPermissions", permissions=["clipboardReadWrite", "clipboardSanitizedWrite"])
        live.save(b"param 5 6080 0 4000", b"param 5 6080 0 7000")
        page.value("document.querySelector('.findings .place').focus()")
        page.key("Enter", 13)
        page.wait("document.querySelector('.findings .place').dataset.said === 'copied'")
        assert page.value("navigator.clipboard.readText()") == "network.txt:7"


def test_the_line_of_a_finding_is_opened_by_the_editor():
    with opened(asked=("--editor", "touch {file}.{line}.opened")) as live:
        page = live.page
        live.save(b"param 5 6080 0 4000", b"param 5 6080 0 7000")
        page.value("document.querySelector('.findings .place').click()")
        page.wait("document.querySelector('.findings .place').dataset.said === 'opened'")
        wait_until(lambda: os.path.exists("network.txt.7.opened"))
        word = live.address.partition("?")[2]
        for query, status in ((f"{word}&file=network.txt&line=1", 404), (f"{word}&file=/etc/passwd&line=7", 404),
                              ("file=network.txt&line=7", 403), (f"{word}&file=network.txt&line=x", 404)):
            assert page.value(f"fetch('open?{query}', {{method: 'POST'}}).then(answer => answer.status)") == status, query
        time.sleep(.2)
        assert [name for name in os.listdir() if name.endswith(".opened")] == ["network.txt.7.opened"]
        page.browser.events.clear()


def test_values_stand_before_names_in_the_frames_table():
    with opened(wide=960, high=800) as live:
        page = live.page
        page.value("live.tabs.choose(3), live.run.view(1), live.run.frames.text.value = '1017h', live.run.frames.filter()")
        page.settle()
        cells = page.value("[...document.querySelectorAll('.frames tbody td:nth-child(5)')].map(each => each.textContent)")
        assert cells == ["pump 1017h:00 := 0064h (Producer heartbeat time)", "pump 1017h:00 written (Producer heartbeat time)"], cells
        right = page.value("""(() => { const cell = document.querySelector('.frames tbody td:nth-child(5)'), range = document.createRange();
            range.setStart(cell.firstChild, 0);
            range.setEnd(cell.firstChild, cell.textContent.indexOf('h (') + 1);
            return [range.getBoundingClientRect().right, cell.getBoundingClientRect().right]; })()""")
        assert right[0] < right[1], "the value is in view"


def test_the_address_has_the_part_that_is_shown():
    with opened() as live:
        page = live.page
        page.value("live.tabs.choose(2)")
        page.wait("location.hash === '#messages'")
        page.value("live.tabs.choose(3), live.run.view(1), live.run.timeline.move(20000, 45000)")
        page.wait("location.hash === '#run/frames/20000-45000'")
        page.open(page.value("location.href"))
        page.wait("live.items.get('ledger') && live.run.timeline.trace")
        page.settle()
        assert page.value("[live.tabs.chosen, live.run.frames.element.hidden]") == [3, False]
        assert page.value("[live.run.timeline.scale.from, live.run.timeline.scale.to]") == [20000, 45000]
        page.value("location.hash = '#nodes'")
        page.wait("live.tabs.chosen === 1")


def walk(page, wide, high):
    """Goes over the page by keys alone: parts, a node's files, the run as a table, a frame in the timeline, and the help."""
    has_run_beside = wide >= 1500 or wide >= 700 and high >= 880
    for _ in range(3):
        if page.value("document.activeElement.id") == "tab-wrong":
            break
        page.key("Tab", 9)
    assert page.value("document.activeElement.id") == "tab-wrong", page.value(FOCUSED)
    assert page.value("getComputedStyle(document.activeElement).outlineStyle") == "solid", "it is seen where one is"
    page.key("ArrowRight", 39)
    for _ in range(4):
        page.key("Tab", 9)
        if page.value("document.activeElement.tagName") == "SUMMARY":
            break
    page.key("Enter", 13)
    assert page.value("document.querySelector('.node').open"), page.value(FOCUSED)
    page.value("document.activeElement.blur()")
    page.key("4")
    assert page.value("!document.getElementById('part-run').hidden")
    assert page.value("live.tabs.chosen") == (1 if has_run_beside else 3), "where the run has no tab the key does nothing"
    page.value("document.querySelector('.switch button:last-child').focus()")
    page.key("Enter", 13)
    page.value("document.querySelector('.frames tbody button').focus()")
    page.key("Enter", 13)
    page.settle()
    assert "ms ·" in text(page, ".tip"), "the frame is shown in the timeline"
    page.key("?")
    assert page.value("document.querySelector('dialog').open") and "frame that has gone" in text(page, "dialog")
    page.key("Escape", 27)
    assert not page.value("document.querySelector('dialog').open")


def test_all_of_it_goes_by_keyboard_in_windows_of_all_sizes_by_day_and_by_night():
    with Browser() as browser:
        live = Opened(browser)
        try:
            live.save(b"param 5 6080 0 4000", b"param 5 6080 0 7000")
            for wide, high in SIZES:
                for dark in (False, True):
                    page = live.another(wide, high, dark=dark)
                    walk(page, wide, high)
                    assert page.value("document.documentElement.scrollWidth") <= wide
                    assert not page.faults(), page.faults()
                    page.open("about:blank")    # a browser has six connections to a server, and a page holds one
        finally:
            live.close()


CONTRAST = """(selector => { const light = text => { const part = text.match(/[\\d.]+/g).slice(0, 3).map(each => each / 255)
      .map(each => each <= .03928 ? each / 12.92 : ((each + .055) / 1.055) ** 2.4);
      return .2126 * part[0] + .7152 * part[1] + .0722 * part[2]; };
    const back = each => { for (; each; each = each.parentElement) { const found = getComputedStyle(each).backgroundColor;
      if (!/, 0\\)|transparent/.test(found)) return found; } return 'rgb(255, 255, 255)'; };
    return [...document.querySelectorAll(selector)].map(each => {
      const two = [light(getComputedStyle(each).color), light(back(each))].sort((a, b) => b - a);
      return (two[0] + .05) / (two[1] + .05); }); })"""


def test_what_is_marked_can_be_read_by_day_and_by_night():
    with opened() as live:
        live.save(b"param 5 6080 0 4000", b"param 5 6080 0 7000")
        live.save(b"param 5 6080 0 7000", b"param 5 6080 0 4000\nparam 9 1017 0 1")
        for dark in ("light", "dark"):
            live.page.ask("Emulation.setEmulatedMedia", features=[{"name": "prefers-color-scheme", "value": dark}])
            live.page.settle()
            marked = ".findings .text, .findings .place, .findings .tag, .summary, .badge:not([hidden]), .link"
            found = live.page.value(f"{CONTRAST}('{marked}')")
            assert len(found) > 6 and min(found) >= 4.5, (dark, found)


def test_the_saves_are_told_in_words_of_who_edits():
    with opened() as live:
        page = live.page
        live.save(b"set 5 6041 0 7", b"set 5 6041 0 9")
        page.value("document.getElementById('about').click()")
        assert page.value("document.querySelector('dialog').open")
        saves = texts(page, ".saves li")
        assert len(saves) == 2 and "simulating" in saves[0], saves
        assert re.search(r"network\.txt\s+2 of 6 parts of the run changed", saves[0]), saves
        assert "what changed: 1 command" in saves[0] and "windows" not in " ".join(saves), saves
