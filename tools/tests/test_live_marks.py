"""What a save has changed is marked on the page of `live`: what is new, what was otherwise, what has moved, what has gone."""
from live_opened import opened, text, texts

FLOW = b"message flow 5 1 1 0 0 0\nsource flow 1 6041 0\nsink flow 1 6 6040 0\n"
STRUCK = "getComputedStyle(document.querySelector({!r})).textDecorationLine"

# The red, green and blue of what stands under a frame of a lane, by its time; of a hollow line its middle and its edge.
UNDER = """((lane, time) => { const view = live.run.timeline, each = view.lanes.shown[lane], ratio = devicePixelRatio;
    const top = AXIS - view.scrolled() + each.top + each.height, x = Math.round(view.scale.x(time)) - 1, pen = view.canvas.getContext('2d');
    return [-4, -6].map(up => [...pen.getImageData(x * ratio, (top + up) * ratio, 1, 1).data].slice(0, 3)); })"""


def is_fresh(colour):
    red, green, blue = colour
    return red > 200 and green < 90 and blue < 190


def test_a_message_that_has_gone_stays_struck_through_until_the_next_save():
    with opened() as live:
        page = live.page
        page.value("live.tabs.choose(2)")
        assert text(page, "#tab-messages .badge") == ""
        live.save(FLOW, b"")
        gone = page.value("[...document.querySelectorAll('#part-messages tr.gone')].map(row => row.innerText.split('\\t').slice(0, 3))")
        assert ["185h", "flow", "pump"] in gone, gone
        assert page.value(STRUCK.format("#part-messages tr.gone td")) == "line-through"
        assert text(page, "#tab-messages .badge").startswith(f"{len(gone)} gone"), text(page, "#tab-messages .badge")
        live.save(b"horizon 60000\n", b"horizon 60000\n" + FLOW)
        assert page.value("document.querySelectorAll('#part-messages tr.gone').length") == 0
        assert ["185h", "flow", "pump"] in page.value(
            "[...document.querySelectorAll('#part-messages tr.new')].map(row => row.innerText.split('\\t').slice(0, 3))")


def test_a_cell_that_was_otherwise_has_that_struck_through_before_it():
    with opened() as live:
        page = live.page
        live.save(b"message flow 5 1 1 0 0 0", b"message flow 5 1 2 0 0 0")
        assert text(page, "#tab-messages .badge") == "1 changed"
        page.value("live.tabs.choose(2)")
        cells = page.value("[...document.querySelectorAll('#part-messages tr.changed td')].filter(each => each.querySelector('del'))"
                           ".map(each => [each.querySelector('del').textContent, each.querySelector('mark').textContent])")
        assert cells == [["1", "2"], ["at each SYNC", "at each 2nd SYNC"]], cells


def test_frames_that_have_gone_are_hollow_and_struck_through():
    with opened() as live:
        page = live.page
        page.value("live.tabs.choose(3)")
        live.save(FLOW, b"")
        gone = page.value("(() => { const { trace } = live.run.timeline; return [...trace.inOrder()].filter(each => trace.isGone(each))"
                          ".map(each => [trace.time[each], trace.identifier(each), trace.text(each)]); })()")
        pdos = [each for each in gone if each[1] == "185"]
        assert pdos and all(each[2].startswith("flow: 6041h") for each in pdos), gone
        badge = text(page, "#tab-run .badge")
        assert badge.startswith(f"{len(gone)} gone"), badge
        page.value(f"live.run.timeline.move({pdos[-1][0] - 2000}, {pdos[-1][0] + 2000})")
        page.settle()
        middle, edge = page.value(f"{UNDER}(1, {pdos[-1][0]})")
        assert is_fresh(edge) and not is_fresh(middle), (edge, middle)
        told = page.value(f"(() => {{ const view = live.run.timeline, lane = view.lanes.shown[1], x = view.scale.x({pdos[-1][0]});"
                          " return findAt(view, x, AXIS - view.scrolled() + lane.top + lane.height - 4).head; })()")
        assert told.endswith("PDO · pump · gone with the last save"), told
        page.value("live.run.view(1), live.run.frames.isNew.click()")
        page.settle()
        assert "flow: 0000h" in page.value("document.querySelector('.frames').innerText")
        assert page.value(STRUCK.format(".frames tr.gone td")) == "line-through"
        assert text(page, ".frames .bar [role=status]").endswith(f", {len(gone)} gone")


def test_frames_that_have_only_moved_are_paler_than_new_ones():
    with opened() as live:
        page = live.page
        page.value("live.tabs.choose(3)")
        live.save(b"param 5 6080 0 4000", b"param 5 6080 0 4000\nparam 6 1017 0 50")
        moved = page.value("[...live.run.timeline.trace.moved].map(([frame, from]) => [live.run.timeline.trace.time[frame], from])")
        fresh = page.value("[...live.run.timeline.trace.fresh].map(frame => live.run.timeline.trace.text(frame))")
        assert moved and all(now != then for now, then in moved), moved
        assert fresh == ["guard 1017h:00 := 0032h (Producer heartbeat time)", "guard 1017h:00 written (Producer heartbeat time)",
                         "guard heartbeat: operational"], fresh
        assert text(page, "#tab-run .badge") == "3 new", "what has only moved isn't counted beside what is new"
        frame, lane = page.value("(() => { const { trace } = live.run.timeline, frame = [...trace.moved.keys()].pop();"
                                 " return [frame, trace.sortOf(frame).lane]; })()")
        at = page.value(f"live.run.timeline.trace.time[{frame}]")
        page.value(f"live.run.timeline.move({at - 2000}, {at + 2000})")
        page.settle()
        middle, _ = page.value(f"{UNDER}({lane}, {at})")
        assert not is_fresh(middle) and middle[0] > middle[1] + 30 and middle[2] > middle[1], ("a pale red", middle)
        assert " · moved by " in page.value(f"tellFrame(live.run.timeline, {frame}).head")


def test_a_node_that_has_gone_stays_struck_through_until_the_next_save():
    with opened() as live:
        page = live.page
        live.save(b"sink flow 1 6 6040 0\n", b"")
        live.save(b"node 6 guard drive\n", b"")
        assert text(page, "#tab-nodes .badge") == "1 gone", text(page, "#tab-nodes .badge")
        page.value("live.tabs.choose(1)")
        assert texts(page, ".node.gone b") == ["guard"] and page.value(STRUCK.format(".node.gone")) == "line-through"
        page.value("live.tabs.choose(3)")
        page.settle()
        assert texts(page, ".lanes li.gone b") == ["guard"]
        live.save(b"set 5 6041 0 7", b"set 5 6041 0 9")
        assert page.value("document.querySelectorAll('.node.gone, .lanes li.gone').length") == 0


def test_a_finding_that_has_gone_is_struck_through():
    with opened() as live:
        page = live.page
        live.save(b"param 5 6080 0 4000", b"param 5 6080 0 7000")
        assert text(page, ".summary .tag") == "1 new" and page.value("document.title") == "1 error · network.txt"
        live.save(b"param 5 6080 0 7000", b"param 5 6080 0 4000")
        assert text(page, ".summary .tag") == "1 gone" and page.value("document.title") == "network.txt · cobench live"
        assert page.value(STRUCK.format(".findings li.gone")) == "line-through" and "7000 is above" in text(page, ".findings li.gone")
        live.save(b"set 5 6041 0 7", b"set 5 6041 0 9")
        assert page.value("document.querySelectorAll('.findings li').length") == 0


def test_what_follows_from_one_slip_is_told_below_it():
    with opened() as live:
        page = live.page
        live.save(b"node 5 pump drive", b"node 5 pump")
        assert text(page, "#tab-wrong .badge") == "1" and page.value("document.querySelectorAll('.findings li').length") == 1
        notes = texts(page, ".findings li.error .note")
        assert len(notes) > 3 and "param 5 1017 0 100" in notes[0], notes
        assert text(page, ".findings li.error .place") == "network.txt:3"
