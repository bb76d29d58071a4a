"""`live` ends within two seconds whatever cobench does, and leaves no process; what passes by itself is tried again."""
import contextlib
import errno
import http.client
import io
import os
import re
import signal
import subprocess
import sys
import threading
import time
from types import SimpleNamespace
from unittest import mock

from cobench_tools import reader, tool
from cobench_tools.live import again, programs
from cobench_tools.live import opened as opened_module
from cobench_tools.live.children import Children
from cobench_tools.live.opened import Ended, Opened
from helper import COBTOOL, put
from live_scene import Scene, wait_until, words
from test_live import Served

# Seconds in which it ends; where the machine has other work, what five starts of Python take comes on top.
LONGEST = 2.0

# What a cobench may do instead of its work, once it was looked at whether it runs.
BAD = {
    "stops reading": "echo garbage; exec sleep 300",
    "hangs": "exec sleep 300",
    "has a child": "trap '' INT TERM HUP; sleep 300 & echo $! >> pids; wait; wait",
    "floods": "exec yes ok",
    "floods a line": "exec cat /dev/zero",
}
FAKE = """#!/bin/sh
echo $$ >> pids
%s || { touch probed; cat first; exit; }
%s
"""
FIRST = b"lines 3\nbitrate 1000\nhorizon 1000000\nmanager 127 0 0 500\n"
BIG = b"horizon 1000\n" + b"version 1\n" * 30000


class Started:
    """A program `cobtool live` in a folder of its own, over a cobench that does something bad."""

    def __init__(self, name, number):
        folder = f"{name} {number:d}"
        os.makedirs(folder)
        put(os.path.join(folder, "first"), FIRST)
        put(os.path.join(folder, "big.txt"), BIG)
        does = ("[ -e probed ]", BAD[name]) if name in BAD else ("true", BAD["hangs"])
        fake = put(os.path.join(folder, "fake"), (FAKE % does).encode())
        os.chmod(fake, 0o755)
        self.name, self.pids = name, os.path.join(folder, "pids")
        live = [sys.executable, COBTOOL, "live", "--port", "0", "--cobench", "./fake", "big.txt"]
        job = ["sh", "-c", "trap '' INT; exec \"$@\"", "sh"]      # as a shell starts the jobs of a script
        self.program = subprocess.Popen(job + live, cwd=folder, stdout=subprocess.PIPE, stderr=subprocess.PIPE)

    def children(self):
        with contextlib.suppress(FileNotFoundError), open(self.pids) as file:
            return [int(line) for line in file]
        return []

    def ends_by(self, number):
        """Has it end: how it ended, how long that took, and whether a process is left."""
        start = time.monotonic()
        self.program.send_signal(number)
        faults = self.program.communicate(timeout=60)[1]
        took = time.monotonic() - start
        return self.program.returncode, faults, took, [each for each in self.children() if is_running(each)]

    def close(self):
        """Ends what is left of it, where the test failed."""
        self.program.kill()
        self.program.communicate()
        for each in filter(is_running, self.children()):
            os.kill(each, signal.SIGKILL)


def longest():
    """The seconds that it has here and now."""
    start = time.monotonic()
    subprocess.run([sys.executable, "-c", ""], check=True)
    return LONGEST + 5 * (time.monotonic() - start)


def is_running(process):
    """Whether a process is there, and hasn't ended."""
    try:
        with open(f"/proc/{process}/stat") as file:
            return file.read().rpartition(")")[2].split()[0] not in ("Z", "X")
    except (FileNotFoundError, ProcessLookupError):
        return False


def test_live_ends_whatever_cobench_does():
    kinds = [(name, signal.SIGTERM) for name in (*BAD, "hangs at once")]
    kinds += [("stops reading", signal.SIGINT), ("hangs", signal.SIGINT), ("hangs", signal.SIGHUP)]
    with contextlib.ExitStack() as stack:
        started = [(stack.enter_context(contextlib.closing(Started(name, number))), number) for name, number in kinds]
        for each, _ in started:
            wait_until(lambda: len(each.children()) > (each.name != "hangs at once"), 60)
        time.sleep(.3)
        most = longest()
        for each, number in started:
            status, faults, took, left = done = each.ends_by(number)
            assert status == 0 and faults == b"" and took < most and not left, (each.name, number, done)


def test_a_program_that_does_not_end_is_killed():
    """With no reply due its end is waited for a while, and with one that nobody waits for not at all."""
    put("first", FIRST)
    for shell, is_due in (("cat first; trap '' TERM; sleep 300 <&-; sleep 300", False), ("sleep 300", True)):
        opened = Opened(["sh", "-c", shell])
        if is_due:
            opened.send(b"trace\n" * 100000, 100000)
        else:
            assert len(opened.lines(b"project")) == 3
        start = time.monotonic()
        opened.close()
        assert opened._process.returncode == -signal.SIGKILL and time.monotonic() - start < LONGEST
        assert is_due or time.monotonic() - start > .5


def test_nothing_starts_once_all_were_ended():
    children = Children()
    opened = Opened(["sleep", "300"], children)
    children.kill()
    opened._process.wait(5)
    opened.close()
    try:
        Opened(["true"], children)
        raise AssertionError("it was started")
    except tool.Fault:
        pass


def test_a_save_helps_where_cobench_says_nothing():
    put("hangs", b"")
    scene = Scene(["sh", "-c", '[ -e hangs ] && exec sleep 300; exec "$@"', "sh", *words()])

    def save():
        time.sleep(.2)
        os.remove("hangs")
        put(scene.script, scene.text() + b"# saved\n")

    with mock.patch.object(opened_module, "SILENT", .3), mock.patch.object(opened_module, "LOOK", .05):
        threading.Thread(target=save).start()
        scene.look()
    scene.follower.close()
    assert scene.status() == ("well", "") and scene.items["wrong"]["findings"] == []


def test_a_line_without_end_is_no_reply():
    opened = Opened(["sh", "-c", "exec cat /dev/zero"])
    try:
        opened.lines(b"project")
        raise AssertionError("it was taken")
    except Ended as ended:
        assert "this is no reply" in str(ended)
    finally:
        opened.close()


# What passes by itself, and what is a slip.

def test_a_fault_that_passes_is_tried_again_and_told_once():
    with Scene() as scene, mock.patch.object(again, "FIRST", 0.0), mock.patch.object(again, "LONGEST", 0.0):
        scene.follower.again = again.Again()
        start = programs.Opened

        def short(*_):
            try:
                raise OSError(errno.EMFILE, os.strerror(errno.EMFILE))
            except OSError as error:
                raise tool.Fault(f"cobench: {error.strerror}") from None

        scene.follower.programs._spare.close()
        with mock.patch.object(programs, "Opened", short):
            scene.change(b"param 5 1017 0 100", b"param 5 1017 0 50")
            assert scene.status() == ("fault", "cobench: Too many open files")
            scene.look()
            assert scene.new == {}, "it is told once"
        assert programs.Opened is start
        scene.look()
        assert scene.status() == ("well", "") and scene.ledger()["edits"] == ["param 5 1017 00 50"] and scene.follower.number == 2
        scene.look()
        assert scene.new == {}


def test_what_the_system_refuses_may_pass():
    put("s.txt", b"eds a <nosuch.eds\n")
    put("t.txt", b"eds a <\n")
    for script, may_pass in (("nosuch.txt", True), ("s.txt", True), ("t.txt", False)):
        try:
            reader.read(script)
            raise AssertionError("it was read")
        except tool.Fault as fault:
            assert again.passes(fault) is may_pass, script


def test_a_fault_of_the_text_is_not_tried_again():
    with Scene() as scene, mock.patch.object(again, "FIRST", 0.0):
        scene.follower.again = again.Again()
        scene.save(bytes(range(256)) * 8)
        assert scene.status()[0] == "fault" and not scene.follower.again.is_due()


def test_what_is_tried_again_is_tried_less_and_less_often():
    now = SimpleNamespace(monotonic=lambda: now.at, at=0.0)
    with mock.patch.object(again, "time", now):
        tried, waits = again.Again(), []
        for _ in range(7):
            tried.failed(OSError(errno.EMFILE, ""))
            start = now.at
            while not tried.is_due():
                now.at += .25
            waits.append(now.at - start)
        assert waits == [1.25, 2.25, 4.25, 8.25, 16.25, 30.25, 30.25]
        tried.clear()
        assert not tried.is_due()
        tried.failed(tool.Fault("n.txt: this is no text"))
        now.at += 100
        assert not tried.is_due()


def test_a_slip_is_shown_with_its_place_to_those_who_look_for_it():
    told = io.BytesIO()
    with Scene() as scene, mock.patch.dict(os.environ), mock.patch.object(sys, "stderr", SimpleNamespace(buffer=told)):
        for value, is_shown in (("", False), ("1", True)):
            os.environ["COBTOOL_DEBUG"] = value
            scene.follower.answers.take = None
            scene.change(*[b"param 5 1017 0 100", b"param 5 1017 0 50"][::-1 if is_shown else 1])
            assert re.match(r"cobtool itself: TypeError in follow.py:[0-9]+: ", scene.status()[1]), scene.status()
            assert (b"Traceback" in told.getvalue() and b"follow.py" in told.getvalue()) is is_shown
        told.truncate(0)
        with Served() as served:
            served.server.saved = lambda name: 1 // 0
            with contextlib.suppress(http.client.HTTPException, OSError):
                served.ask("GET", "/files/5.dcf")
            wait_until(lambda: b"ZeroDivisionError" in told.getvalue())
