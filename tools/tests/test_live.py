"""`live` without a browser: what a save becomes, what goes wrong, and what the server answers."""
import http.client
import json
import os
import random
import re
import signal
import socket
import subprocess
import sys
import threading
from types import SimpleNamespace
from unittest import mock

from cobench_tools import meaning, replies, trace
from cobench_tools.bundle import content_text
from cobench_tools.live import watch
from cobench_tools.live.drawing import Plain, TextDrawing
from cobench_tools.live.feed import Feed
from cobench_tools.live.opened import Opened
from cobench_tools.live.run import spans_of
from cobench_tools.live.server import Server
from cobench_tools.picture import Drawing, Sorts, Window
from helper import BINARY, COBTOOL, EXAMPLES, file, is_refused, put, run, run_alone
from live_scene import FOLDER, Scene, wait_until, window_of, words


def value(items, node, entry):
    """What a node's item has of an entry: name, value, value before."""
    return next(row[1:] for row in items[f"node/{node}"]["values"] if row[0] == entry)


# What a save becomes.

def test_the_first_look_shows_all_of_the_script():
    with Scene() as scene:
        items = scene.items
        assert scene.status() == ("well", "") and items["wrong"]["findings"] == []
        assert [items[f"node/{node}"]["name"] for node in (5, 6)] == ["pump", "guard"]
        assert value(items, 5, "1017h:00") == ["Producer heartbeat time", "100 (64h)", None]
        assert items["node/5"]["dcf"][:2] == ["[1000]", "ParameterName=Device type"] and "ParameterValue=0x0064" in items["node/5"]["dcf"]
        assert not items["node/5"]["marks"] and not items["node/5"]["isNew"]
        assert items["table/messages"]["rows"][0][:4] == ["185h", "flow", "pump", "1"]
        assert items["run"]["end"] == 60000 and [lane[1] for lane in items["run"]["lanes"]] == ["manager", "pump", "guard"]
        assert items["boots"]["text"].startswith("2 of 2 nodes booted by ")
        trace = scene.trace()
        assert trace[0] == "0000000055 705 [1] 00" and any(line.endswith("note 6 configured") for line in trace)
        assert scene.ledger()["edits"] is None and scene.ledger()["files"] == ["network.txt"]


def test_a_changed_value_is_one_edit_and_is_marked():
    with Scene() as scene:
        items = scene.change(b"param 5 1017 0 100", b"param 5 1017 0 50")
        assert scene.ledger()["edits"] == ["param 5 1017 00 50"] and scene.ledger()["why"] == ""
        assert value(items, 5, "1017h:00") == ["Producer heartbeat time", "50 (32h)", "100 (64h)"]
        marks = [[items["node/5"]["dcf"][place], was] for place, was in items["node/5"]["marks"]]
        assert marks == [["ParameterValue=0x0032", "0x0064"]], marks
        assert "node/6" not in scene.new and "table/messages" not in scene.new
        assert items["table/heartbeats"]["marks"] == [0]
        scene.change(b"param 5 6080 0 4000", b"param 5 6080 0 4500")
        assert value(scene.items, 5, "1017h:00") == ["Producer heartbeat time", "50 (32h)", None], "marks are of the last save"
        assert value(scene.items, 5, "6080h:00")[1:] == ["4500 (1194h)", "4000 (FA0h)"]
        assert scene.items["table/heartbeats"]["marks"] == []


def test_only_windows_that_changed_are_sent_again():
    with Scene() as scene:
        before = scene.trace()
        scene.change(b"set 5 6041 0 7", b"set 5 6041 0 9")
        assert scene.windows() == [4, 5], scene.windows()
        assert scene.ledger()["windows"] == 2 and scene.ledger()["ofWindows"] == 6
        assert [line for line in scene.trace() if line < "0000040000"] == [line for line in before if line < "0000040000"]
        assert [line[-5:] for line in scene.trace() if " 185 " in line and line > "0000040000"] == ["09 00", "09 00"]
        scene.change(b"event 1 40000", b"# event 1 40000")
        assert scene.ledger()["edits"] == ["drop-event 1"] and scene.windows() == [4, 5]


def test_windows_are_found_in_the_text_of_a_trace():
    chance = random.Random(64)
    for _ in range(300):
        numbers = sorted(chance.choices(range(12), k=chance.randint(0, 60)))
        text = b"".join(b"%06d%04d 181 [%d]%s\n" % (number, place, size, b" 00" * size) for place, number in enumerate(numbers)
                        for size in [chance.randint(0, 8)])
        spans = list(spans_of(text, {}))
        assert b"".join(span for _, span in spans) == text and [number for number, _ in spans] == sorted(set(numbers))
        assert all(line.startswith(b"%06d" % number) for number, span in spans for line in span.splitlines())
        kept = {number: SimpleNamespace(text=chance.choice((span, span[:span.index(b"\n") + 1]))) for number, span in spans}
        assert list(spans_of(text, kept)) == spans, "what was kept changes nothing"


def test_a_value_has_no_other_windows_drawn_again():
    with Scene() as scene:
        run, drawn = scene.follower.run, []
        draw = run._draw
        run._draw = lambda number, *more: drawn.append(number) or draw(number, *more)
        scene.change(b"param 5 1017 0 100", b"param 5 1017 0 50")
        assert scene.status() == ("well", "") and scene.windows() == drawn and 0 < len(drawn) < 6, (scene.windows(), drawn)


def test_windows_of_texts_are_those_of_their_lines():
    answers = replies.session_of("replies", file(EXAMPLES, "servo_axes.replies.txt")).replies
    lines = next(reply.lines for reply in answers if reply.lines and trace.trace_of(reply.lines))
    one, other = Drawing(meaning.Network(None, True), Sorts()), TextDrawing(meaning.Network(None, True), Sorts())
    kinds = []
    for number in range(int(lines[-1][:6]) + 1):
        mine = [line for line in lines if int(line[:6]) == number]
        plain = one.window(number * 10000, trace.trace_of(mine))
        window = other.window_of(number * 10000, b"".join(line + b"\n" for line in mine))
        content = window_of(json.loads(content_text(window.content())))
        assert rows_of(plain.content(), one.sorts) == rows_of(content, other.sorts)
        assert (plain.changes, plain.said, plain.noted, plain.flags) == (window.changes, window.said, list(window.noted), list(window.flags))
        kinds.append(type(window))
    assert kinds.count(Window) > 2 and kinds.count(Plain) > 2


def rows_of(content, sorts):
    """What the frames of a window are, with their times and bytes."""
    return content["time"], [json.loads(json.dumps(sorts.rows[sort])) for sort in content["sort"]], content["data"]


def test_another_name_is_shown_in_all_places():
    with Scene() as scene:
        before = scene.trace()
        scene.change(b"node 5 pump", b"node 5 motor")
        assert scene.ledger()["edits"] == ["node 5 motor drive"] and scene.trace() == before
        assert scene.items["node/5"]["name"] == "motor" and scene.items["node/5"]["marks"]
        texts = [row[4] for item in scene.items.values() if isinstance(item, dict) and "rows" in item and "at" in item for row in item["rows"]]
        assert "motor boot-up" in texts and "pump boot-up" not in texts


def test_a_node_comes_and_goes():
    with Scene() as scene:
        scene.change(b"horizon", b"node 7 lamp drive\nhorizon")
        assert scene.ledger()["edits"] == ["node 7 lamp drive"] and scene.items["node/7"]["isNew"]
        assert [lane[1] for lane in scene.items["run"]["lanes"]] == ["manager", "pump", "guard", "lamp"]
        scene.change(b"node 7 lamp drive\n", b"")
        assert scene.ledger()["edits"] == ["drop-node 7"] and "node/7" not in scene.items


def test_what_is_wrong_is_told_as_check_does():
    with Scene() as scene:
        scene.change(b"param 5 6080 0 4000", b"param 5 6080 0 7000\nparam 9 1017 0 1")
        found = [(each["line"], each["code"], each["text"]) for each in scene.items["wrong"]["findings"]]
        assert found == [(7, "E03", "6080h:00 Max motor speed: 7000 is above the HighLimit 6000 (drive.eds:52)"),
                         (8, "refused", "param 9 1017 0 1: refused 4 Unknown: node 9 isn't there; there are: 5, 6")], found
        assert scene.status() == ("well", "1 command was refused: this is what the others make")
        assert scene.items["wrong"]["diagnostics"] == ["E03 param 5 6080 00"]
        assert value(scene.items, 5, "6080h:00")[1:] == ["-", "4000 (FA0h)"], "what isn't written any more is shown as it was"
        scene.save(file(FOLDER, "network.txt"))
        assert scene.items["wrong"]["findings"] == [] and scene.status() == ("well", "")


def test_an_included_data_sheet_is_followed_too():
    with Scene() as scene:
        put("drive.eds", file("drive.eds").replace(b"HighLimit=6000", b"HighLimit=3000"))
        scene.look()
        assert scene.ledger()["files"] == ["drive.eds"] and scene.ledger()["edits"] == ["eds drive 52"]
        assert [each["code"] for each in scene.items["wrong"]["findings"]] == ["E03"]


def test_a_save_that_changes_nothing_asks_nothing():
    with Scene() as scene:
        os.utime("network.txt", (1, 1))
        scene.look()
        assert scene.new == {} and len(scene.items["ledger"]) == 1
        scene.change(b"# A pump", b"# The pump")
        assert scene.ledger()["edits"] == [] and scene.windows() == []


# What goes wrong.

def test_a_cobench_that_is_killed_is_started_afresh():
    with Scene() as scene:
        before = scene.trace()
        os.kill(scene.follower.programs.opened._process.pid, signal.SIGKILL)
        wait_until(lambda: not scene.follower.programs.opened.is_running())
        scene.look()
        assert "was killed by signal 9" in scene.ledger()["why"] and scene.ledger()["edits"] is None
        assert scene.trace() == before and scene.status() == ("well", "")
        scene.change(b"param 5 1017 0 100", b"param 5 1017 0 50")
        assert scene.ledger()["edits"] == ["param 5 1017 00 50"]


def test_a_cobench_that_waits_may_end():
    with Scene() as scene:
        os.kill(scene.follower.programs._spare._process.pid, signal.SIGKILL)
        wait_until(lambda: not scene.follower.programs._spare.is_running())
        scene.change(b"param 5 1017 0 100", b"param 5 1017 0 50")
        assert scene.status() == ("well", "") and scene.ledger()["edits"] == ["param 5 1017 00 50"]


def test_replies_are_read_whatever_the_pieces():
    chance = random.Random(65)
    for _ in range(12):
        texts = [random_reply(chance) for _ in range(chance.randint(1, 12))]
        put("replies", b"".join(texts))
        opened = Opened([sys.executable, "-S", "-E", "-c", PIECES, "replies", str(chance.choice((1, 7, 60, 1 << 17)))])
        opened.send(b"", len(texts))
        for text in texts:
            kept = chance.choice((b"", text, text[:-2] + b"x\n", random_reply(chance)))
            found = opened.take_reply(kept)
            assert found == text and (found is kept or kept != text)
        assert opened.due == 0
        opened.close()


# A program that writes a file in pieces of a size, and then waits for its input to end.
PIECES = """
import sys
text, size = open(sys.argv[1], "rb").read(), int(sys.argv[2])
for place in range(0, len(text), size):
    sys.stdout.buffer.write(text[place:place + size])
    sys.stdout.buffer.flush()
sys.stdin.read()
"""


def random_reply(chance):
    count = chance.choice((0, 1, 2, 3, 40, 5000))
    return b"lines %d\n" % count + b"".join(b"%0*d\n" % (chance.randint(1, 9), line) for line in range(count))


def test_a_cobench_of_another_project_is_started_afresh():
    with Scene() as scene:
        scene.follower.programs.opened.ask(b"horizon 50000\n", 1)
        scene.change(b"param 5 1017 0 100", b"param 5 1017 0 50")
        assert scene.ledger()["why"] == "the edits made another project than the script" and scene.items["run"]["end"] == 60000


def test_a_script_that_is_gone_comes_back():
    with Scene() as scene:
        before = scene.trace()
        os.rename("network.txt", "away.txt")
        scene.look()
        assert scene.status() == ("fault", "network.txt: No such file or directory") and scene.trace() == before
        scene.look()
        assert scene.new == {}
        os.rename("away.txt", "network.txt")
        scene.look()
        assert scene.status() == ("well", "") and scene.ledger()["edits"] == []


def test_a_data_sheet_that_is_missing_is_told_and_looked_for():
    with Scene() as scene:
        os.rename("drive.eds", "away.eds")
        scene.look()
        assert scene.status() == ("fault", "network.txt:2: drive.eds: No such file or directory"), scene.status()
        os.rename("away.eds", "drive.eds")
        scene.look()
        assert scene.status() == ("well", "")


def test_a_file_that_is_no_script_is_told():
    with Scene() as scene:
        scene.save(bytes(range(256)) * 8)
        assert scene.status() == ("fault", "network.txt: this is no text")
        scene.save(b"")
        assert scene.status() == ("well", "") and "node/5" not in scene.items and "table/messages" in scene.items
        scene.save(file(FOLDER, "network.txt"))
        assert scene.status() == ("well", "") and scene.items["node/5"]["name"] == "pump"


def test_a_fault_of_live_itself_is_told_and_forgotten():
    with Scene() as scene:
        scene.follower.answers.take = None
        scene.change(b"param 5 1017 0 100", b"param 5 1017 0 50")
        assert scene.status()[0] == "fault" and scene.status()[1].startswith("cobtool itself: TypeError"), scene.status()
        assert set(scene.items) == {"status"}
        scene.change(b"param 5 1017 0 50", b"param 5 1017 0 100")
        assert scene.status() == ("well", "") and scene.ledger()["edits"] is None and scene.trace()[0] == "0000000055 705 [1] 00"


def test_odd_files_are_told_and_gone_on_from():
    with Scene() as scene:
        text, before = scene.text(), scene.trace()
        for odd, why in ((text.decode().encode("utf-16"), "this is UTF-16; save it as UTF-8 or as plain ASCII"),
                         (text.replace(b"\n", b"\r"), "its lines end by CR alone; save it with LF or CR LF"),
                         (b"#" * (64 << 20) + b"\n", "64 MiB, and cobtool takes no more"), (text + b"eds x 3\n", "the script ends after 0 of the 3 lines")):
            scene.save(odd)
            assert scene.status()[0] == "fault" and why in scene.status()[1], scene.status()
            assert scene.trace() == before
        scene.save(text.replace(b"\n", b"\r\n"))
        assert scene.status() == ("well", "") and scene.ledger()["edits"] == [] and scene.trace() == before
        os.remove("network.txt")
        os.mkdir("network.txt")
        scene.look()
        assert scene.status() == ("fault", "network.txt: Is a directory")


def test_an_editor_that_writes_in_two_steps_is_waited_for():
    with Scene() as scene:
        rest = [scene.text().replace(b"0 100", b"0 50")]
        put("network.txt", rest[0][:150])
        now = [os.stat("network.txt").st_mtime]

        def sleep(seconds):
            """The clock of `watch` goes on in its waits alone, and the second step comes in the first of them."""
            now[0] += seconds
            if rest:
                now[0] = os.stat(put("network.txt", rest.pop())).st_mtime

        with mock.patch.object(watch, "time", SimpleNamespace(time=lambda: now[0], sleep=sleep)):
            scene.look()
        assert scene.ledger()["edits"] == ["param 5 1017 00 50"], scene.ledger()


def test_a_file_that_is_written_meanwhile_is_followed_again():
    with Scene() as scene:
        still, before = iter((False,)), scene.trace()
        scene.follower.watch.stands_still = lambda: next(still, True)
        scene.change(b"param 5 1017 0 100", b"param 5 1017 0 50")
        assert scene.status() == ("well", "") and scene.ledger()["edits"] == [] and len(scene.items["ledger"]) == 2
        assert value(scene.items, 5, "1017h:00") == ["Producer heartbeat time", "50 (32h)", "100 (64h)"]
        assert scene.windows() and len(scene.trace()) > len(before), "what was drawn of the first time is told too"


# The feed and the server.

def test_the_feed_gives_what_is_new():
    feed = Feed()
    feed.put({"a": 1, "b": "<x>"})
    assert feed.since(0, 0) == (1, {"a": "1", "b": '"\\u003cx>"'})
    feed.put({"a": 1, "b": 2, "c": None})
    assert feed.since(1, 0) == (2, {"b": "2"}) and feed.since(0, 0) == (2, {"a": "1", "b": "2"})
    feed.put({"a": None})
    assert feed.since(2, 0) == (3, {"a": "null"}) and feed.since(0, 0) == (3, {"b": "2"})
    feed.put({"b": 2})
    assert feed.since(3, .01) == (3, {})


class Served:
    """A server over a feed, for requests of all kinds."""

    def __init__(self, word=""):
        self.feed = Feed()
        self.feed.put({"name": "</script><script>alert(1)</script>"})
        self.server = Server(0, "<b>net</b>", self.feed, {"5.dcf": (b"\xe4\n", "text/plain")}.get, word)
        threading.Thread(target=self.server.serve, daemon=True).start()

    def __enter__(self):
        return self

    def __exit__(self, *_):
        self.server.close()

    def ask(self, method, path, host=None):
        """The status, headers and body of an answer."""
        link = http.client.HTTPConnection("127.0.0.1", self.server.server_port, timeout=10)
        link.putrequest(method, path, skip_host=True)
        if host != "":
            link.putheader("Host", host or f"127.0.0.1:{self.server.server_port}")
        link.endheaders()
        answer = link.getresponse()
        return answer.status, answer.headers, answer.read()


def test_the_server_has_one_page_and_fixed_paths():
    with Served() as served:
        status, headers, page = served.ask("GET", "/")
        assert status == 200 and b"http" not in page and b"src=" not in page and b"<b>net" not in page
        assert "default-src 'none'" in headers["Content-Security-Policy"] and headers["X-Content-Type-Options"] == "nosniff"
        assert served.ask("GET", "/?x=1")[0] == 200 and served.ask("HEAD", "/")[::2] == (200, b"")
        assert served.ask("GET", "/files/5.dcf")[2] == b"\xe4\n"
        for path in ("/files/6.dcf", "/files/", "/files/../cobtool", "/..", "/../../etc/passwd", "/%2e%2e/x", "/page", "/feed/"):
            assert served.ask("GET", path)[0] == 404, path


def test_the_server_answers_to_its_own_names_alone():
    with Served() as served:
        port = served.server.server_port
        for host in (f"127.0.0.1:{port}", f"localhost:{port}", f"LOCALHOST:{port}"):
            assert served.ask("GET", "/", host)[0] == 200, host
        for host in ("", "evil.example", f"evil.example:{port}", "127.0.0.1", f"127.0.0.1:{port + 1}", f"127.0.0.1.evil.example:{port}"):
            for path in ("/", "/feed", "/files/5.dcf", "/nosuch"):
                assert served.ask("GET", path, host)[0] == 403, (host, path)


def test_the_server_is_only_read():
    with Served() as served:
        for method in ("POST", "PUT", "DELETE", "OPTIONS", "PATCH", "TRACE", "CONNECT", "NOSUCH"):
            status, headers, _ = served.ask(method, "/")
            assert status == 405 and headers["Allow"] == "GET, HEAD", method


def test_the_server_listens_on_this_machine_alone():
    with Served() as served:
        assert served.server.socket.getsockname()[0] == "127.0.0.1"


def events(served, last=""):
    """A connection to the feed, as a file of lines."""
    link = socket.create_connection(("127.0.0.1", served.server.server_port), timeout=10)
    link.sendall(f"GET /feed HTTP/1.1\r\nHost: localhost:{served.server.server_port}\r\n{last}\r\n".encode())
    lines = link.makefile("rb")
    while lines.readline().strip():
        pass
    return lines


def next_event(lines):
    """The identity and the content of the next event."""
    name = lines.readline()
    assert name.startswith(b"id: "), name
    data = lines.readline()
    assert b"<" not in data and lines.readline() == b"\n"
    return name[4:].strip().decode(), json.loads(data[6:])


def test_browsers_get_all_and_then_what_is_new():
    with Served() as served:
        lines = events(served)
        first, message = next_event(lines)
        assert message == {"whole": True, "items": {"name": "</script><script>alert(1)</script>"}}
        served.feed.put({"other": 1})
        assert next_event(lines)[1] == {"whole": False, "items": {"other": 1}}
        again = events(served, f"Last-Event-ID: {first}\r\n")
        assert next_event(again)[1] == {"whole": False, "items": {"other": 1}}, "a browser that comes back goes on from there"
        strange = events(served, "Last-Event-ID: 00-99\r\n")
        assert next_event(strange)[1]["whole"] is True
        lines.close()
        served.feed.put({"other": 2})
        assert next_event(again)[1] == {"whole": False, "items": {"other": 2}}, "one that goes away doesn't matter to the others"


# The command, and what the documents say of it.

def test_live_says_why_it_cannot():
    put("net.txt", b"bitrate 500\n")
    is_refused(run("live", "nosuch.txt"), "nosuch.txt: No such file or directory")
    is_refused(run("live", "-"), "SCRIPT is a file")
    is_refused(run("live", put("binary", BINARY)), "binary: this is no text")
    is_refused(run("live", "."), ".: Is a directory")
    is_refused(run("live", "--cobench", "/nosuch", "net.txt"), "/nosuch: No such file or directory")
    is_refused(run("live", "--cobench", "false", "net.txt"), "false ended with status 1")
    is_refused(run("live", "--cobench", "echo hello", "net.txt"), "this is no reply: hello")
    program = " ".join(words())
    is_refused(run("live", "--port", "70000", "--cobench", program, "net.txt"), "a port is 0 to 65535")
    with socket.create_server(("127.0.0.1", 0)) as taken:
        port = str(taken.getsockname()[1])
        is_refused(run("live", "--port", port, "--cobench", program, "net.txt"), f"port {port}: Address already in use")


def test_live_needs_a_place_for_its_first_line():
    scene = Scene()
    words_of_live = ("live", "--port", "0", "--cobench", " ".join(words()), scene.script)
    with open("/dev/full", "w") as full:
        done = run_alone(*words_of_live, stdout=full, stderr=subprocess.PIPE, timeout=30)
    assert done.returncode == 2 and done.stderr == b"cobtool: the standard output: No space left on device\n", done


def test_live_serves_until_it_is_ended():
    scene = Scene()
    program = subprocess.Popen([sys.executable, COBTOOL, "live", "--port", "0", "--cobench", " ".join(words()), scene.script],
                               stdout=subprocess.PIPE, stderr=subprocess.PIPE)
    port, word = re.match(rb"http://127.0.0.1:([0-9]+)/(\?k=[\w-]{22}) follows network.txt", program.stdout.readline()).groups()
    port, word = int(port), word.decode()
    link = http.client.HTTPConnection("127.0.0.1", port, timeout=10)
    link.request("GET", "/" + word)
    assert b"network.txt" in link.getresponse().read()
    stream = http.client.HTTPConnection("127.0.0.1", port, timeout=10)
    stream.request("GET", "/feed" + word)
    lines = stream.getresponse()
    wait_until(lambda: b'"ledger":[{' in lines.readline())
    program.send_signal(signal.SIGTERM)
    output, faults = program.communicate(timeout=10)
    assert program.returncode == 0 and faults == b"", faults
    assert re.fullmatch(rb"1 save; the last cobench: 3 windows simulated and 4 parts made anew\n", output), output
