"""`bus watch`: it tells what `conform` tells of the same frames, as they come, sends nothing, and serves its page here alone."""
import threading
import time
import urllib.error
import urllib.request

from bus_scene import Rack, here, python_can, servo
from helper import EXAMPLES, example, recorded, run

from cobench_tools.bus import connection
from cobench_tools.bus.actions import watch as action
from cobench_tools.bus.connection import Connection
from cobench_tools.bus.planned import Planned
from cobench_tools.bus.watch import BusLog, Watch
from cobench_tools.bus.last_frames import LastFrames
from cobench_tools.bus.watch_page import PageServer, content_of
from cobench_tools.conform.tolerance import Tolerance
from cobench_tools.logs import source

SCRIPT, LOG = example("servo_axes.txt"), example("servo_axes.log")
CHANNEL = "can0"


class Replay:
    """A bus on which the frames of a log come at once, each with its time; then nothing comes."""

    def __init__(self, can, path, rows=None):
        rows = rows if rows is not None else [row for block in source.Log(path).blocks() for row in block.rows]
        self.messages = [can.Message(arbitration_id=int(key[:3], 16), data=bytes.fromhex(data), is_extended_id=False, timestamp=micros / 1e6)
                         for micros, key, data in rows]
        self.sent = []

    def recv(self, seconds):
        if self.messages:
            return self.messages.pop(0)
        time.sleep(min(seconds, 0.02))
        return None

    def send(self, message, timeout=None):
        self.sent.append(message)

    def shutdown(self):
        """It is over."""


def watched(replay, *words):
    """What `bus watch` does on a bus that is replayed: status, output and faults."""
    kept = connection.opened
    connection.opened = lambda options, planned=None, is_silent=False: Connection(python_can(), replay, None, is_silent)
    try:
        return here("bus", "watch", "--cobench", recorded(), *words, SCRIPT)
    finally:
        connection.opened = kept


def watch_of(**more):
    plan = Planned(SCRIPT, recorded())
    return Watch(plan, Tolerance(), BusLog(CHANNEL), **more)


def nothing_accepted(finding):
    return False


def test_it_tells_what_conform_tells_of_the_same_frames():
    """The report at the end is that of `conform` on the log, with the number of each message for its line."""
    replay = Replay(python_can(), LOG)
    status, output, faults = watched(replay, "--trace", "1", "--seconds", "1")
    conformed = run("conform", "--cobench", recorded(), "--trace", "1", SCRIPT, LOG)
    expected = conformed[1].decode().replace(f"{LOG}:", f"{CHANNEL}:")
    assert status == 1 and not faults and not replay.sent, faults
    assert output.startswith(f"{CHANNEL} is watched; Ctrl-C ends it\n") and output.endswith(expected), (output[-900:], expected)
    first = output[:output.index(expected)]
    for code in ("sdo-value", "pdo-swapped", "heartbeat-missed"):
        assert first.count(f"[{code}]\n") == 1, (code, first)
    assert all(f"\n0.320277 s: {name}: operational\n" in first for name in ("node 1 x_axis", "node 2 y_axis", "node 10 motion")), first


def test_an_accepted_finding_is_not_told():
    accepted = [word for code in ("sdo-value", "pdo-swapped", "heartbeat-missed", "emcy", "refused") for word in ("--allow", code)]
    status, output, _ = watched(Replay(python_can(), LOG), "--trace", "1", "--seconds", "0.5", *accepted)
    assert status == 0 and "error:" not in output and "no errors, no warnings, 3 accepted; " in output, output


def test_a_finding_is_told_before_the_frames_that_follow():
    """The wrong write is in line 28: with the first 40 frames it is told, before the others are there."""
    replay, watch = Replay(python_can(), LOG), watch_of()
    later, replay.messages = replay.messages[40:], replay.messages[:40]
    bus = Connection(python_can(), replay, None, True)
    lines = watch.step(bus, nothing_accepted)
    assert any(line.startswith(f"{CHANNEL}:28: error: node 1 x_axis: 607Dh:02 ") and line.endswith("[sdo-value]") for line in lines), lines
    replay.messages = later
    lines = watch.step(bus, nothing_accepted)
    assert not any("sdo-value" in line for line in lines) and any("[pdo-swapped]" in line for line in lines), lines


def test_what_stays_away_is_told_while_it_does():
    """Heartbeats and PDOs of the first axis end after 60 ms; others go on. A look is one that is due."""
    rows = [row for block in source.Log(LOG).blocks() for row in block.rows]
    begin = rows[0][0]
    left = [row for row in rows if row[0] < begin + 60_000 or row[1] not in ("701#", "181#", "581#", "081#")]
    replay, watch = Replay(python_can(), None, left), watch_of()
    watch.next_look = 0
    lines = watch.step(Connection(python_can(), replay, None, True), nothing_accepted)
    assert any("node 1 x_axis: no heartbeat came for 319.167 ms, to the end; " in line and line.endswith("[heartbeat-missed]") for line in lines), lines
    assert any("message x_actual: 181h: it doesn't come after SYNC, 27 times" in line for line in lines), lines
    watch.next_look = 0
    again = watch.step(Connection(python_can(), replay, None, True), nothing_accepted)
    assert not any(line.endswith("]") for line in again), again
    assert watch.judge.causes.found.keys().isdisjoint({("heartbeat-missed", "1"), ("pdo-missing", "181")}), "the judge itself goes on"


def test_a_bus_without_a_frame_is_told():
    watch = watch_of()
    bus = Connection(python_can(), Replay(python_can(), LOG), None, True)
    watch.step(bus, nothing_accepted)
    watch.heard -= 2.5
    assert [line for line in watch.step(bus, nothing_accepted) if "no frame" in line] == ["0.320277 s: no frame comes, for 2 s"]
    status, output, _ = watched(Replay(python_can(), None, []), "--seconds", "0.2")
    assert (status, output) == (1, f"{CHANNEL} is watched; Ctrl-C ends it\nno frame came\n"), output


def test_nothing_is_sent_on_a_bus_with_devices():
    """A drive sends its heartbeat; the bus gets nothing of the watch."""
    made, channel = servo(1), f"watch {time.monotonic_ns()}"
    made.entries[0x1017, 0].data = b"\x14\0"
    python_can()
    rack = Rack([made], channel)
    rack.start()
    try:
        status, output, faults = here("bus", "watch", "--interface", "virtual", "--channel", channel, "--seconds", "0.4", "--log", "bus.log",
                                      "--jitter", "100000", "--cobench", recorded(), SCRIPT)
    finally:
        rack.close()
    assert not rack.frames and "node 1 x_axis: pre-operational" in output, output
    lines = open("bus.log").read().splitlines()
    assert lines and all(line.endswith(" 701#7F") for line in lines), lines


def fetched(address, **headers):
    """The status, headers and text of a page."""
    try:
        with urllib.request.urlopen(urllib.request.Request(address, headers=headers)) as answer:
            return answer.status, answer.headers, answer.read().decode()
    except urllib.error.HTTPError as refused:
        return refused.code, refused.headers, ""


def test_the_page_is_served_here_alone_and_drawn_anew():
    plan = Planned(SCRIPT, recorded())
    watch = Watch(plan, Tolerance(), BusLog(CHANNEL), drawn=LastFrames(plan, Tolerance()))
    server = PageServer(0, lambda: content_of(watch, nothing_accepted, "can0"), "secret")
    threading.Thread(target=server.serve, daemon=True).start()
    bare = server.address.partition("?")[0]
    try:
        assert server.address.startswith("http://127.0.0.1:") and server.address == bare + "?k=secret" and fetched(bare)[0] == 403
        assert "No frame has come yet" in fetched(server.address)[2]
        watch.step(Connection(python_can(), Replay(python_can(), LOG), None, True), nothing_accepted)
        status, headers, text = fetched(server.address)
        assert status == 200 and headers["Refresh"] == "3" and "sha256-" in headers["Content-Security-Policy"]
        assert "pdo-swapped" in text and "x_axis" in text and '"planned, node 1"' in text
        assert fetched(server.address, Host="elsewhere:80")[0] == 403 and fetched(bare + "feed?k=secret")[0] == 404
    finally:
        server.close()


def test_the_last_frames_are_drawn():
    """Of 120,000 frames the first ones go, block by block, so that at least the last 50,000 stay."""
    drawn = LastFrames(Planned(SCRIPT, recorded()), Tolerance())
    for block in range(12):
        rows = [(1_000_000 + 100 * (block * 10_000 + number), "701#", "05") for number in range(10_000)]
        drawn.take(source.Block(rows, range(len(rows))))
    assert drawn.count == 50_000 and drawn.left == 70_000 and len(drawn.windows) == 5 and drawn.windows[0].times[0] >= 0


def test_ctrl_c_ends_it_with_the_report():
    class Interrupting(Replay):
        def recv(self, seconds):
            if not self.messages:
                raise KeyboardInterrupt
            return super().recv(seconds)
    status, output, faults = watched(Interrupting(python_can(), LOG), "--trace", "1")
    assert status == 1 and not faults and "3 errors, no warnings; 427 frames in 0.320277 s; " in output, (output, faults)


def test_its_numbers_are_checked_before_the_bus_is_opened():
    for words, says in ((("--jitter", "200000"), "--jitter is 0 to 100,000 microseconds"), (("--page", "70000"), "a port is 0 to 65535, not 70000")):
        status, output, faults = watched(Replay(python_can(), LOG), *words)
        assert status == 2 and says in faults and len(faults.splitlines()) == 1, faults
    assert action.PORT == 8307 and EXAMPLES in SCRIPT
