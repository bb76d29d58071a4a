"""An export that a signal ends leaves one state, or a mix that its manifest tells; and exports wait for one another."""
import os
import random
import shutil
import signal
import subprocess
import sys
import time
from unittest import mock

from cobench_tools import export_folder, folder_lock, manifest
from helper import COBTOOL, example, file, in_parallel, recorded
from killing import SIGNALS, begin, check_truth, check_whole, fault_of, run_for, run_to, source, state, users_files, write

# Whether the folder has files of the user, and the nodes of the second state.
SCENES = (False, (1, 2)), (True, (1, 2)), (False, (1, 3))



def killed_exports(moments, is_shared, nodes, number):
    """Exports the second state over the first, and is killed at some of its steps; the next export has all whole."""
    shutil.rmtree("files", ignore_errors=True)
    begin(is_shared)
    steps = run_to(0, number, lambda: write(2, nodes))[1]
    assert steps > 20
    for moment in [1 + place * steps // moments for place in range(moments)]:
        shutil.rmtree("files")
        begin(is_shared)
        status, _ = run_to(moment, number, lambda: write(2, nodes))
        assert os.WIFSIGNALED(status) and os.WTERMSIG(status) == number, (number, moment, status)
        check_killed(number, is_shared, (1, 2), nodes)


def check_killed(number, is_shared, first, nodes):
    """What a killed export left is what its manifest says, and the next one, of the first nodes, has all whole."""
    is_whole = check_truth(nodes)
    is_done = is_whole and manifest.read("files").script == source(2).digest
    if number != signal.SIGKILL:
        left = {*os.listdir("files")} - {*state(1, first), *state(2, nodes), manifest.NAME}
        assert is_whole and left == users_files(is_shared), left
    write(3, first)
    check_whole(3, first, is_shared, {*state(2, nodes)} - {*state(3, first)} if is_done else ())


def killed_in_each_scene(number, moments):
    for is_shared, nodes in SCENES:
        killed_exports(moments, is_shared, nodes, number)


def test_an_export_that_control_c_ends_leaves_one_state():
    killed_in_each_scene(signal.SIGINT, 7)


def test_an_export_that_is_terminated_leaves_one_state():
    killed_in_each_scene(signal.SIGTERM, 7)


def test_an_export_whose_terminal_goes_leaves_one_state():
    killed_in_each_scene(signal.SIGHUP, 7)


def test_an_export_that_is_killed_is_put_in_order_by_the_next_one():
    killed_in_each_scene(signal.SIGKILL, 7)


def all_exports_that_are_killed_at_any_step():
    in_parallel(killed_at_any_step, range(len(SIGNALS)))


def killed_at_any_step(place):
    killed_in_each_scene(SIGNALS[place], 200)


def all_exports_that_are_killed_at_any_time():
    """200 random moments for each signal, half of them in a folder with other files."""
    killed = in_parallel(killed_at_any_time, range(2 * len(SIGNALS)))
    print(f"{sum(killed)} of {100 * len(killed)} exports were killed before they ended")


def killed_at_any_time(place):
    """How many of 100 exports a signal killed before they ended."""
    chance, nodes, killed = random.Random(place), tuple(range(1, 9)), 0
    number, is_shared = SIGNALS[place // 2], bool(place % 2)
    begin(is_shared, nodes)
    longest = run_for(0, 0, lambda: write(2, nodes))[1]
    for _ in range(100):
        shutil.rmtree("files")
        begin(is_shared, nodes)
        status, _ = run_for(chance.random() * longest, number, lambda: write(2, nodes))
        assert status in (0, number)
        killed += status == number
        check_killed(number, is_shared, nodes, nodes)
    return killed


def test_an_export_file_by_file_says_so_until_it_is_complete():
    begin(True)
    found = set()
    for moment in range(1, 200, 3):
        status, _ = run_to(moment, signal.SIGKILL, lambda: write(2))
        found.add(check_truth((1, 2)))
        if not os.WIFSIGNALED(status):
            break
    assert found == {True, False}


def test_a_second_signal_does_not_disturb_the_undoing():
    begin(True)

    def stopped_twice():
        real = os.replace
        def replace(one, other):
            for number in (signal.SIGTERM, signal.SIGINT, signal.SIGHUP):
                os.kill(os.getpid(), number)
            real(one, other)
        with mock.patch.object(os, "replace", replace):
            write(2)

    status, _ = run_to(0, 0, stopped_twice)
    assert os.WIFSIGNALED(status) and os.WTERMSIG(status) == signal.SIGTERM
    check_whole(1, (1, 2), True)


def test_a_signal_that_is_ignored_stays_ignored():
    def ignoring():
        signal.signal(signal.SIGHUP, signal.SIG_IGN)
        os.kill(os.getpid(), signal.SIGHUP)
        write(2)

    begin(True)
    assert run_to(30, signal.SIGHUP, ignoring)[0] == 0
    check_whole(2, (1, 2), True)


def test_a_real_export_that_is_interrupted_leaves_one_state():
    for number in (signal.SIGINT, signal.SIGTERM):
        words = [sys.executable, COBTOOL, "export", "--cobench", recorded(), "files", example("io_modules.txt")]
        with subprocess.Popen(words, stdout=subprocess.DEVNULL, stderr=subprocess.PIPE) as program:
            while program.poll() is None and not os.path.exists("files"):
                time.sleep(.001)
            program.send_signal(number)
            faults = program.communicate()[1]
        assert program.returncode in (130, -number, 0) and faults == b"", (program.returncode, faults)
        assert not os.path.exists("files") or len(os.listdir("files")) in (0, 10)


# One at a time.

def forked(work):
    """A process that does some work; it ends with status 0 where that can be done."""
    child = os.fork()
    if not child:
        status = 1
        try:
            work()
            status = 0
        finally:
            os._exit(status)
    return child


def write_often(number):
    for _ in range(6):
        write(number)


def watch_exports(children, is_shared):
    """Looks at the folder until all have ended: in one that changes file by file each file is there at all times."""
    while children:
        done, status = os.waitpid(-1, os.WNOHANG)
        if done:
            children.remove(done)
            assert status == 0
        assert not is_shared or {*state(1)} <= {*os.listdir("files")}
        time.sleep(.002)


def test_exports_into_one_folder_lose_nothing():
    for is_shared in (False, True):
        begin(is_shared)
        with mock.patch.object(folder_lock, "PATIENCE", 300):
            children = [forked(lambda number=number: write_often(number)) for number in (1, 2, 1, 2)]
        try:
            watch_exports(children, is_shared)
        finally:
            for child in children:
                os.kill(child, signal.SIGKILL)
                os.waitpid(child, 0)
        check_whole(int(file("files", "trace.txt").split()[1]), (1, 2), is_shared)
        shutil.rmtree("files")


def test_the_lock_says_who_holds_it_and_ends_with_its_process():
    begin(True)
    reading, writing = os.pipe()
    child = os.fork()
    if not child:
        lock = folder_lock.FolderLock("files", None)
        os.write(writing, b"x")
        time.sleep(60)
        os._exit(lock.made)
    os.read(reading, 1)
    with mock.patch.object(folder_lock, "PATIENCE", .1):
        said = fault_of(write, 2)
    holder = f"process {child} on {os.uname().nodename} since 2"
    assert said.startswith(f"files: another export writes there: {holder}"), said
    check_truth((1, 2))
    os.kill(child, signal.SIGKILL)
    os.waitpid(child, 0)
    write(2)
    check_whole(2, (1, 2), True)


def test_a_folder_that_was_made_for_nothing_goes_again():
    with mock.patch.object(export_folder, "write_new", side_effect=OSError(28, "No space left on device")):
        assert fault_of(export_folder.write, "a/b/files", state(1), source(1)).endswith(": No space left on device")
    assert os.listdir(".") == []
