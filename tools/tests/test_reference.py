"""The plain program of reference/: worked rows, the stored sessions, and generated scripts beside cobench."""
import os
import re
import subprocess
import sys

from helper import ROOT, Skipped, file, put, real, sessions

REFERENCE = os.path.join(ROOT, "reference")
sys.path.append(REFERENCE)

from rules.session import replies_to


def compare(*words):
    """The status and the output of reference/compare."""
    done = subprocess.run([sys.executable, os.path.join(REFERENCE, "compare"), *words], stdout=subprocess.PIPE)
    return done.returncode, done.stdout


def program(*words, given=b""):
    """The status, the output and the faults of reference/cobench."""
    done = subprocess.run([sys.executable, os.path.join(REFERENCE, "cobench"), *words], input=given, capture_output=True)
    return done.returncode, done.stdout, done.stderr


def test_the_plain_program_answers_the_worked_rows():
    status, output = compare("--rows")
    rows = [name for folder in ("version_2", "version_3") for name in os.listdir(os.path.join(REFERENCE, "rows", folder))
            if name.endswith((".replies.txt", ".check.txt"))]
    assert status == 0 and output == b"%d equal, 0 different\n" % len(rows) and len(rows) > 190, output[-2000:]


def test_the_program_answers_from_its_input_and_from_a_file():
    put("script", b"event 1 0 nmt 1 0\nversion 3\nreceive m 5 1 1\nproject\n")
    replies = b"ok\nok\nrefused 4 Unknown\nlines 5\nversion 3\nbitrate 1000\nhorizon 1000000\nmanager 127 0 0 500\nevent 1 0 nmt 1 0\n"
    assert program("--script", "script") == (0, replies, b"") and program(given=file("script")) == (0, replies, b"")
    assert program("--script", "nosuch") == (1, b"", b"cobench: 2 Read\n")
    assert program("--work", given=b"trace\ntrace\n")[2] == b"work 101 1003\n"
    assert program("--work", "--capacity", "100", given=b"trace\ntrace\n")[2] == b"work 102 1003\n"


def test_the_period_of_time_is_counted_as_what_the_roster_has():
    """Three windows a run. An edit that leaves the period and the day as they were makes nothing anew."""
    def work(*lines):
        edits = b"".join(line + b"\ntrace\n" for line in lines)
        return program("--work", given=b"version 3\nhorizon 20000\ntrace\n" + edits)[2]
    assert work() == b"work 3 1003\n" and work(b"time-period 0 7") == b"work 3 1003\n"
    assert work(b"time-period 1000 5") == work(b"time-period 1000 5", b"time-period 1000 5") == b"work 6 1004\n"
    assert work(b"time-period 1000 5", b"time-period 1000 6") == work(b"time-period 1000 5", b"time-period 2000 5") == b"work 9 1005\n"
    assert work(b"time-period 1000 5", b"time-period 0 5") == b"work 6 1005\n"


def test_types_of_version_3_are_modelled_in_it_alone():
    put("script", b"version 3\neds a 2\n[2000]\nDataType=8\nnode 5 n a\nparam 5 2000 0 1.5\ndiag\nversion 2\ndiag\nversion 3\ndiag\n")
    assert program("--script", "script")[1] == b"ok\n" * 4 + b"lines 0\nok\nlines 1\nE16 param 5 2000 00\nok\nlines 0\n"


def test_a_row_that_is_answered_otherwise_is_reported_and_kept():
    put("silent.py", b"import sys\nsys.stdin.buffer.read()\n")
    status, output = compare(f"{sys.executable} silent.py", "--rows", "--seeds", "1:2", "--kind", "text")
    assert status == 1 and b"row-manager_alone.txt differs\n  line 1 of the replies\n  expected b'lines 1'\n" in output, output
    assert b"\n1 equal, " not in output and file("row-manager_alone.txt") == file(REFERENCE, "rows", "version_2", "manager_alone.txt")
    assert file("text-1.txt").startswith(b"eds a ")


def test_the_plain_program_answers_the_stored_sessions():
    stored = sessions("stdout")
    for title, text in sessions("stdin").items():
        assert b"".join(replies_to(text)) == re.sub(rb"(?m)^> .*\n", b"", stored[title]), title


def test_cobench_answers_generated_scripts_as_the_plain_program_does():
    try:
        words = real()
    except Skipped as why:
        raise Skipped(f"{why}; a cobench is needed to compare it with the plain program") from None
    status, output = compare(words, "--work", "--seeds", "0:30")
    assert status == 0 and output == b"270 equal, 0 different\n", output[-2000:]


def test_the_plain_program_has_a_module_for_each_page_of_the_rules():
    names = {name[:-3] for name in os.listdir(os.path.join(REFERENCE, "rules")) if name.endswith(".py")} - {"__init__"}
    pages = {name[:-3] for name in os.listdir(os.path.join(ROOT, "docs", "rules")) if name.endswith(".md")} - {"README"}
    assert pages <= names, pages - names
    for name in names:
        text = file(REFERENCE, "rules", name + ".py").decode()
        found = re.findall(r"docs/[a-z_/]+\.md", text.split('"""')[1])
        assert found and all(os.path.exists(os.path.join(ROOT, page)) for page in found), name
        assert max(map(len, text.splitlines())) <= 120, name
