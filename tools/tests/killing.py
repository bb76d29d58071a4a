"""Exports that are killed at a chosen moment: for the tests of what they leave, and what the next one makes of it."""
import os
import signal
import sys
import time
import traceback

from cobench_tools import export_folder, manifest
from cobench_tools.tool import Fault
from helper import put

SIGNALS = signal.SIGINT, signal.SIGTERM, signal.SIGHUP, signal.SIGKILL
STEPS = {"open", "os.mkdir", "os.link", "os.rename", "os.remove", "os.rmdir", "os.chmod", "os.listdir", "shutil.rmtree"}
NOTES = b"of the user"


def state(number, nodes=(1, 2)):
    """The files of a state of a script."""
    names = [(node, kind) for node in nodes for kind in ("dcf", "bin")]
    files = {f"{node}_n{node}.{kind}": b"%s of %d\n" % (kind.encode(), number) * 40 for node, kind in names}
    return {**files, **{name: b"state %d\n" % number for name in manifest.OTHERS}}


def source(number):
    return manifest.Source("net.txt", manifest.digest_of(b"%d" % number), None)


def write(number, nodes=(1, 2)):
    """Exports a state into `files`."""
    export_folder.write("files", state(number, nodes), source(number))


def fault_of(work, *words):
    """Why some work can't be done."""
    try:
        work(*words)
    except Fault as fault:
        return str(fault)
    raise AssertionError("it was done")


def run_to(moment, number, work):
    """Runs work in a process that gets a signal before its step of that number; how it ended, and of how many steps."""
    reading, writing = os.pipe()
    child = os.fork()
    if not child:
        steps = [0]

        def count(event, _):
            if event in STEPS:
                steps[0] += 1
                if steps[0] == moment:
                    os.kill(os.getpid(), number)

        signal.signal(signal.SIGINT, signal.SIG_DFL)
        sys.addaudithook(count)
        status = 1
        try:
            work()
            status = 0
        except BaseException:
            traceback.print_exc()
        finally:
            os.write(writing, b"%d" % steps[0])
            os._exit(status)
    os.close(writing)
    status = os.waitpid(child, 0)[1]
    with os.fdopen(reading) as said:
        return status, int(said.read() or 0)


def run_for(seconds, number, work):
    """Runs work in a process that gets a signal after a time; how it ended, and how long it took."""
    start = time.monotonic()
    child = os.fork()
    if not child:
        status = 1
        try:
            signal.signal(signal.SIGINT, signal.SIG_DFL)
            work()
            status = 0
        except BaseException:
            traceback.print_exc()
        finally:
            os._exit(status)
    if number:
        time.sleep(seconds)
        os.kill(child, number)
    return os.waitpid(child, 0)[1], time.monotonic() - start


def begin(is_shared, nodes=(1, 2)):
    """A folder `files` with an export of the first state, and where it is shared with files of the user."""
    write(1, nodes)
    if is_shared:
        put("files/notes.txt", NOTES)
        put("files/.1_n1.dcf.old", NOTES)
        put("files/.1_n1.dcf.new", NOTES)


def users_files(is_shared):
    return {"notes.txt", ".1_n1.dcf.old", ".1_n1.dcf.new"} if is_shared else set()


def contents(names):
    """What files of the folder have; None for one that isn't there."""
    return {name: manifest.content_of("files", name) for name in names}


def check_truth(nodes):
    """What stands in the folder is what its manifest says; gives whether the manifest is that of a whole export."""
    found = manifest.read("files")
    there = manifest.digests_of("files", {*state(1, nodes), *state(2, nodes), *found.files})
    if found.before is None:
        assert {name: there.get(name) for name in found.files} == found.files, (found, there)
        assert found.script in (source(1).digest, source(2).digest, source(3).digest)
    else:
        for name, digest in found.files.items():
            assert there.get(name) in (digest, found.before.get(name)), name
    return found.before is None


def check_whole(number, nodes, is_shared, more=()):
    """The folder has this state alone, and nothing is left in it or beside it."""
    wanted = state(number, nodes)
    assert contents(wanted) == wanted and check_truth(nodes)
    names = {*wanted, manifest.NAME, *users_files(is_shared), *more}
    assert set(os.listdir("files")) == names, set(os.listdir("files")) ^ names
    assert all(data == NOTES for data in contents(users_files(is_shared)).values())
    assert [name for name in os.listdir(".") if name.startswith(".")] == []
