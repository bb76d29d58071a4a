"""What is read: files that aren't files, that never end or say what no log says; and which ones a script may take in."""
import os
import socket
import subprocess
import sys
import threading
import time

from helper import COBTOOL, TOOLS, is_fine, is_refused, put, recorded, run

from cobench_tools import device, digits

SHEET = b"eds drive 2\n[1017]\nDataType=0x0006\n"
MOST_SECONDS = 20     # a second is meant, on a machine that does much else


def at_once(*words, given=b""):
    """What `run` gives; it has to be there soon."""
    start = time.monotonic()
    done = run(*words, given=given)
    assert time.monotonic() - start < MOST_SECONDS, (words, time.monotonic() - start)
    return done


def test_a_script_takes_in_files_alone():
    os.mkfifo("pipe")
    os.mkdir("folder")
    listener = socket.socket(socket.AF_UNIX)
    listener.bind("socket")
    for path, why in (("pipe", "pipe: it is a pipe, and a script takes in files alone"), ("socket", "socket: it is a socket, and"),
                      ("/dev/zero", "/dev/zero: it is a device, and"), ("folder", "folder: Is a directory")):
        for line in (f"<{path}\n", f"eds a <{path}\n"):
            put("net.txt", line.encode())
            for words in (("expand",), ("check", "--cobench", recorded()), ("matrix", "--cobench", recorded())):
                is_refused(at_once(*words, "net.txt"), f"net.txt:1: {why}")
    listener.close()
    put("net.txt", b"bitrate 500\nhorizon 5\n<a\0b\n")
    is_refused(at_once("expand", "net.txt"), "net.txt:3: a?b: no file has such a name")


def test_files_without_an_end_are_told_at_once():
    for words in (("expand", "/dev/zero"), ("import", "/dev/zero"), ("stats", "/dev/zero"), ("candump", "/dev/zero")):
        is_refused(at_once(*words), "/dev/zero: this is no text")
    command = "yes 'horizon 1' | \"$0\" \"$1\" expand -"
    done = subprocess.run(["sh", "-c", command, sys.executable, COBTOOL], stdout=subprocess.PIPE, stderr=subprocess.PIPE)
    assert done.returncode == 2 and not done.stdout, done.returncode
    assert done.stderr == b"cobtool: the standard input: it has over 64 MiB, and cobtool takes no more\n", done.stderr


def test_a_pipe_is_read_where_somebody_writes_into_it():
    os.mkfifo("pipe")
    is_refused(at_once("expand", "pipe"), "pipe: it is a pipe, and nobody writes into it")
    put("net.txt", SHEET + b"node 5 pump drive\n")
    is_refused(at_once("conform", "--cobench", recorded(), "net.txt", "pipe"), "pipe: it is a pipe, and nobody writes into it")
    writer = threading.Thread(target=put, args=("pipe", b"bitrate 500\n"))
    writer.start()
    is_fine(at_once("expand", "pipe"), b"bitrate 500\n")
    writer.join()


def test_a_script_that_was_edited_since_is_told():
    put("net.txt", SHEET + b"node 5 pump drive\ntrace\n")
    put("replies.txt", b"ok\nok\nlines 1\n0000000000 note 5 configured\n")
    assert run("explain", "net.txt", "replies.txt")[0] == 0
    for edit in (b"node 5 pump drives", b"node pump 5 drive", b"node 5 pump", b"param 5 1017 0 7", b"drop-eds drives", b"bitrate 0",
                 b"manager 127", b"message m 6 1 1 0 0 0", b"event 1 0 nmt 7 0", "node ² pump drive".encode(),
                 b"known 5", b"-init- 5", b"node-there 5"):
        put("net.txt", SHEET + edit + b"\ntrace\n")
        for words in (("explain", "net.txt", "replies.txt"), ("timeline", "--script", "net.txt", "replies.txt"),
                      ("stats", "--script", "net.txt", "replies.txt")):
            done = run(*words)
            assert done[0] == 2, (edit, done)
            is_refused(done, "they are of different sessions")


LOGS = {
    "minus.asc": b"base hex  timestamps absolute\n 0.0001 1  605             Rx   d 8 2F 00 14 02 00 00 00 -1\n",
    "under.asc": b"base hex  timestamps absolute\n 0.0001 1  605             Rx   d 2 1_0 +5\n",
    "columns.trc": b";$FILEVERSION=2.1\n;$COLUMNS=N,O,T,I,R,D\n1 1.0 DT 0181 - 01\n",
    "minus.trc": b";$FILEVERSION=2.1\n;$COLUMNS=N,O,T,B,I,d,R,L,D\n 1  1.000 DT 1 0181 Rx - 1 01\n 2  2.000 DT 1 -181 Rx - 1 01\n",
    "size.trc": b";$FILEVERSION=2.1\n;$COLUMNS=N,O,T,B,I,d,R,L,D\n 1  1.000 DT 1 0181 Rx - -1 01\n",
    "time.trc": b";$FILEVERSION=1.1\n 1)  1_0.5  Rx 0181  1  01\n",
    "infinite.csv": b"timestamp,arbitration_id,extended,remote,error,dlc,data\n1e999,0x181,0,0,0,1,AA==\n",
    "late.csv": b"timestamp,arbitration_id,extended,remote,error,dlc,data\n1.0,0x181,0,0,0,1,AA==\n1e999,0x181,0,0,0,1,AA==\n",
    "under.csv": b"timestamp,arbitration_id,extended,remote,error,dlc,data\n1.0,0x181,0,0,0,1,AA==\n1_1.0,0x181,0,0,0,1,AA==\n",
    "key.csv": b"timestamp,arbitration_id,extended,remote,error,dlc,data\n1.0,0x181,0,0,0,1,AA==\n2.0,0x1_82,0,0,0,1,AA==\n",
    "long.log": b"(" + b"1" * 5000 + b".000000) can0 181#00\n",
}


def test_numbers_of_a_log_are_digits():
    """No line of these logs has a frame, though Python would read a number in each."""
    put("net.txt", SHEET + b"node 5 pump drive\n")
    for name, data in LOGS.items():
        put(name, data)
        bad = data[:data.rfind(b"\n", 0, -1) + 1].count(b"\n") + 1
        done = run("conform", "--cobench", recorded(), "net.txt", name)
        assert done[0] == 2, (name, done)
        is_refused(done, f"{name}:{bad - (name == 'columns.trc')}: ")
    put("time.asc", b"base hex  timestamps absolute\n 1.000000 1  605             Rx   d 1 00\n1_2.000000 1  605             Rx   d 1 00\n")
    assert b" 1 frames " in run("conform", "--cobench", recorded(), "net.txt", "time.asc")[1]


def test_numbers_of_a_data_sheet_are_those_of_the_rules():
    """As docs/rules/values.md says, at most 2^64 - 1, however many digits are written."""
    for text, number in (("0" * 5000 + "7", 7), ("9" * 5000, None), ("0x" + "0" * 5000 + "f", 15), ("0x" + "f" * 17, None),
                         (str(2 ** 64 - 1), 2 ** 64 - 1), (str(2 ** 64), None), (str(-2 ** 63), -2 ** 63), (str(-2 ** 63 - 1), None),
                         ("01777777777777777777777", 2 ** 64 - 1), ("02000000000000000000000", None), ("-0", 0), ("-017", -15),
                         ("089", 89), ("²", None), ("+5", None), ("1_0", None), ("٣", None)):
        assert device.read_number(text) == number, text[:30]
    assert device.read_formula(f"$NODEID+{2 ** 64 - 1}", 1) is None
    for text in ("²", "٣", "1_0", " 1", "+1", "-1", "", "1" * 5000):
        for read in (digits.decimal, digits.hexadecimal):
            try:
                assert read(text) is None
            except ValueError:
                pass


def test_a_line_of_blanks_is_told_as_it_is():
    put("net.txt", b"horizon 1\n%5000s\n" % b"")
    put("replies.txt", b"ok\nrefused 2 Syntax\n")
    status, output, _ = run("refusals", "net.txt", "replies.txt")
    assert status == 1 and b"the line has 5,000 bytes, and a line has at most 4,096" in output, output
    status, output, faults = run("check", "--cobench", recorded(), "net.txt")
    assert status == 1 and b"net.txt:2: error: " in output and not faults, (output, faults)
    for words in (("expand", "net.txt"), ("matrix", "--cobench", recorded(), "net.txt"), ("dbc", "--cobench", recorded(), "net.txt")):
        assert "cobtool itself" not in run(*words)[2], run(*words)


# Which files a script may take in.

def project():
    """Folders with a script that takes in a file beside it, one of its own folder, and one by a link."""
    os.makedirs("all/net")
    put("all/net/own.txt", b"bitrate 500\n")
    put("all/shared.txt", b"horizon 5\n")
    put("secret.txt", b"password\n")
    os.symlink("../../secret.txt", "all/net/link.txt")
    for name, file in (("own", "own.txt"), ("shared", "../shared.txt"), ("secret", os.path.abspath("secret.txt")), ("link", "link.txt")):
        put(f"all/net/{name}_net.txt", f"<{file}\n".encode())


def test_within_says_which_files_a_script_takes_in():
    project()
    for name, output in (("own", b"bitrate 500\n"), ("shared", b"horizon 5\n"), ("secret", b"password\n"), ("link", b"password\n")):
        is_fine(run("expand", f"all/net/{name}_net.txt"), output)
    for within, taken in (("all/net", ("own",)), ("all", ("own", "shared")), (".", ("own", "shared", "secret", "link"))):
        for name in ("own", "shared", "secret", "link"):
            done = run("expand", "--within", within, f"all/net/{name}_net.txt")
            if name in taken:
                assert done[0] == 0, (within, name, done)
            else:
                is_refused(done, f"all/net/{name}_net.txt:1: ", f": it is outside of {within}")
                assert "password" not in done[2]
    is_refused(run("expand", "--within", "nosuch", "all/net/own_net.txt"), "--within nosuch: there is no such folder")


def test_within_holds_for_data_sheets_and_for_each_command():
    os.makedirs("net")
    put("x.eds", b"[1017]\nDataType=6\n")
    put("net/net.txt", b"eds x <../x.eds\nnode 5 pump x\n")
    put("replies.txt", b"ok\nok\n")
    put("x.log", b"(1.0) can0 181#05\n")
    for words in (["check"], ["export", "files"], ["matrix"], ["dbc"], ["diff", "net/net.txt"], ["load"], ["conform"]):
        behind = ["x.log"] if words == ["conform"] else []
        done = run(words[0], "--cobench", recorded(), "--within", "net", *words[1:], "net/net.txt", *behind)
        is_refused(done, "net/net.txt:1: net/../x.eds: it is outside of net")
    for words in (("explain", "net/net.txt", "replies.txt"), ("stats", "--script", "net/net.txt", "replies.txt"),
                  ("timeline", "--script", "net/net.txt", "replies.txt"), ("expand", "net/net.txt")):
        is_refused(run(words[0], "--within", "net", *words[1:]), "net/net.txt:1: net/../x.eds: it is outside of net")


def test_where_ci_is_set_a_script_takes_in_files_of_its_own_folder():
    project()
    try:
        for value, is_ci in (("true", True), ("1", True), ("", False), ("false", False)):
            os.environ["CI"] = value
            done = run("expand", "all/net/shared_net.txt")
            if is_ci:
                is_refused(done, "it is outside of the script's folder; where CI is set")
            else:
                is_fine(done, b"horizon 5\n")
            assert run("expand", "all/net/own_net.txt")[0] == 0
            assert run("expand", "--within", "all", "all/net/shared_net.txt")[0] == 0
    finally:
        os.environ.pop("CI", None)


def test_the_tests_are_the_same_where_ci_is_set():
    """Those of this subject have scripts with data sheets of another folder."""
    done = subprocess.run([sys.executable, os.path.join(TOOLS, "test"), "planned_run"],
                          env={**os.environ, "CI": "true"}, stdout=subprocess.PIPE)
    assert done.returncode == 0 and done.stdout.endswith(b" passed, 0 failed\n"), done.stdout.decode()


def test_a_revision_is_no_option_of_git():
    put("n.txt", b"horizon 5\n")
    subprocess.run(["git", "init", "-q"], check=True)
    is_refused(run("diff", "--cobench", recorded(), "--git=--output=made", "n.txt"))
    assert sorted(os.listdir(".")) == [".git", "n.txt"]
