"""What the tests of the tools share: to run cobtool, to put files down, and to judge what it did."""
import concurrent.futures
import os
import re
import shlex
import subprocess
import sys
import tempfile
import traceback

from cobench_tools import session as session_module
from cobench_tools.main import main
from cobench_tools.tool import Fault

TOOLS = os.path.dirname(os.path.dirname(os.path.abspath(__file__)))
ROOT = os.path.dirname(TOOLS)
EXAMPLES = os.path.join(ROOT, "examples")
COBTOOL = os.path.join(TOOLS, "cobtool")
BINARY = bytes(range(256)) * 8


class Skipped(Exception):
    """Why a test can't run here."""


def file(*parts):
    with open(os.path.join(*parts), "rb") as opened:
        return opened.read()


def kept(name):
    return file(TOOLS, "tests", name)


def kept_at(name):
    return os.path.join(TOOLS, "tests", name)


def example(name):
    return os.path.join(EXAMPLES, name)


def run(*words, given=b""):
    """The status, output and faults of `cobtool` with these words, run in the folder of this test.

    It runs in a fork of this process, which has Python and the modules at hand: a tenth of the time.
    """
    with tempfile.TemporaryFile() as stdin, tempfile.TemporaryFile() as stdout, tempfile.TemporaryFile() as stderr:
        stdin.write(given)
        stdin.seek(0)
        child = os.fork()
        if not child:
            run_here(words, stdin.fileno(), stdout.fileno(), stderr.fileno())
        status = os.WEXITSTATUS(os.waitpid(child, 0)[1])
        for stream in (stdout, stderr):
            stream.seek(0)
        return status, stdout.read(), stderr.read().decode("utf-8", "replace")


def run_here(words, *streams):
    """Ends this process as `cobtool` ends with these words and streams."""
    status = 1
    try:
        for number, stream in enumerate(streams):
            os.dup2(stream, number)
        sys.stdin, sys.stdout, sys.stderr = open(0), open(1, "w"), open(2, "w")
        status = main(list(words))
    except SystemExit as end:
        status = end.code or 0
    except BaseException:
        os.write(2, traceback.format_exc().encode())
    finally:
        os._exit(status)


def run_alone(*words, **streams):
    """What `subprocess.run` gives for `cobtool` with these words, in a process of its own."""
    return subprocess.run([sys.executable, COBTOOL, *words], **streams)


def put(name, data):
    """Writes a file into the folder of this test."""
    with open(name, "wb") as made:
        made.write(data)
    return name


def is_fine(done, output):
    """The tool did its work, said nothing else, and printed this."""
    assert done[0] == 0 and done[2] == "", done
    assert done[1] == output, done[1][:200]


def is_refused(done, *says):
    """The tool couldn't do its work, says why in one line, and printed nothing."""
    assert done[0] == 2 and done[1] == b"", done
    assert "Traceback" not in done[2] and "cobtool itself" not in done[2] and len(done[2].splitlines()) == 1, done[2]
    for each in says:
        assert each in done[2], done[2]


def recorded():
    """The words of a program that answers as cobench does where the replies are kept in tests/recorded."""
    return f"{sys.executable} -S -E {kept_at('stand_in')}"


def recorded_replies(text):
    """The replies that are kept to an input."""
    return subprocess.run([sys.executable, kept_at("stand_in")], input=text, stdout=subprocess.PIPE, check=True).stdout


def real():
    """The words of the cobench over which the long lists run."""
    try:
        return os.environ.get("COBTOOL_COMPARE") or " ".join(session_module.program(None))
    except Fault as fault:
        raise Skipped(fault) from None


def real_once():
    """The words of that cobench, which is asked once for each input in the folder of this test."""
    return f"{sys.executable} -S -E {kept_at('stand_in')} --once {shlex.quote(real())}"


def in_parallel(work, numbers):
    """What work gives for each number, by as many processes as there are processors; each has a folder of its own."""
    with concurrent.futures.ProcessPoolExecutor() as pool:
        return list(pool.map(in_folder, [work] * len(numbers), numbers))


def in_folder(work, number):
    start = os.getcwd()
    with tempfile.TemporaryDirectory() as folder:
        os.chdir(folder)
        try:
            return work(number)
        finally:
            os.chdir(start)


def answers(program, text, queries):
    """The lines of the replies of a program to these queries behind a script, which has none."""
    done = subprocess.run(program.split(" "), input=text + queries, stdout=subprocess.PIPE, check=True)
    lines, found, place = done.stdout.split(b"\n"), [], 0
    while place < len(lines):
        count = int(lines[place][6:]) if lines[place].startswith(b"lines ") else 0
        found += [lines[place + 1:place + 1 + count]] if lines[place].startswith(b"lines ") else []
        place += 1 + count
    return found[-queries.count(b"\n"):]


def stand_in(text, replies):
    """The words of a program that answers this input by these replies, and no other."""
    put("input", text)
    put("replies", replies)
    return f"{recorded()} input replies"


def sessions(name):
    """The sessions that crates/checks_sessions runs (`stdin`), or its replies to them (`stdout`), by title."""
    parts = re.split(rb"(?m)^===-? (.*)\n", file(ROOT, "crates", "checks_sessions", name))
    return dict(zip(parts[1::2], parts[2::2]))


def session(title, name="stdin"):
    """The one of these whose title begins so."""
    found = [text for each, text in sessions(name).items() if each.startswith(title)]
    assert len(found) == 1, title
    return found[0]
