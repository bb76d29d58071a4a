"""Pages for a machine's papers: they say when they were made, of which version of which script, and what is wrong, and print whole."""
import os
import re
import shutil
import subprocess
from unittest import mock

from browser import Browser
from helper import EXAMPLES, Skipped, file, put, recorded, run

SLIP = "message x_actual: sink 1 of node 10 motion, 2201h:01"


def copied():
    """The example with a slip, and the data sheets that it takes in, in the folder of the test."""
    for name in ("slip.txt", "servo_drive.eds", "motion_controller.eds"):
        shutil.copy(os.path.join(EXAMPLES, name), name)


def page_of(*words):
    """What a command prints for the example."""
    status, output, faults = run(*words, "slip.txt", "--cobench", recorded())
    assert status == 1 and "[E09]" in faults, (words, status, faults)
    return output.decode()


def pages():
    return [page_of("matrix", "--format", "html"), page_of("load", "--assume", "20000", "--format", "html"), page_of("timeline")]


def git(*words):
    """What git prints."""
    who = {"GIT_AUTHOR_NAME": "a", "GIT_AUTHOR_EMAIL": "a@b", "GIT_COMMITTER_NAME": "a", "GIT_COMMITTER_EMAIL": "a@b",
           "GIT_COMMITTER_DATE": "2026-02-03T10:00:00", "GIT_CONFIG_GLOBAL": os.devnull, "GIT_CONFIG_SYSTEM": os.devnull}
    done = subprocess.run(["git", *words], stdout=subprocess.PIPE, stderr=subprocess.STDOUT, env={**os.environ, **who})
    assert done.returncode == 0, done.stdout
    return done.stdout.decode().strip()


def test_pages_have_their_day_their_script_and_what_is_wrong():
    copied()
    with mock.patch.dict(os.environ, {"SOURCE_DATE_EPOCH": "1770112800"}):
        for page in pages():
            assert re.search(r"made on 2026-02-03 10:00 by cobtool [0-9.]+ of slip\.txt[<\"]", page), page[:3000]
            assert SLIP in page and "1 error, " in page and "[E09]" in page


def test_pages_have_the_version_of_their_script_where_git_has_one():
    if not shutil.which("git"):
        raise Skipped("no git is installed")
    copied()
    git("init", "-q")
    git("add", "slip.txt", "servo_drive.eds")
    git("commit", "-q", "-m", "first")
    version = f", version {git('rev-parse', '--short', 'HEAD')} of 2026-02-03"
    git("add", "motion_controller.eds")
    git("commit", "-q", "-m", "second")
    version = f", version {git('rev-parse', '--short', 'HEAD')} of 2026-02-03"
    for page in pages():
        assert version in page and "committed" not in page
    put("servo_drive.eds", file("servo_drive.eds") + b"; a comment\n")
    assert version + ", with changes not committed" in page_of("matrix", "--format", "html"), "of a file that it takes in"
    git("rm", "-q", "--cached", "slip.txt")
    git("commit", "-q", "-m", "third")
    assert "version" not in page_of("matrix", "--format", "html").split("</h1>")[1].split("<h2>")[0], "git has no version of it"


def printed(name, page):
    """The text of a page as Chromium prints it, and how many pages of paper it takes."""
    if not shutil.which("pdftotext"):
        raise Skipped("pdftotext of poppler-utils isn't installed")
    put(name + ".html", page.encode())
    with Browser() as browser:
        opened = browser.page(1280, 800, dark=True)
        opened.open_file(name + ".html")
        put(name + ".pdf", opened.pdf())
        assert not opened.faults(), opened.faults()
    text = subprocess.run(["pdftotext", "-layout", name + ".pdf", "-"], stdout=subprocess.PIPE, check=True).stdout.decode()
    return " ".join(text.split()), text.count("\f")


def test_the_network_prints_whole():
    copied()
    text, _ = printed("matrix", page_of("matrix", "--format", "html"))
    tables = "Nodes", "Signals", "Parameters", "Heartbeats", "Missed after"
    for words in ("made on 20", "slip.txt", "1 error, no warnings", "What is wrong", SLIP) + tables:
        assert words in text, words


def test_the_load_prints_whole():
    copied()
    text, _ = printed("load", page_of("load", "--assume", "20000", "--format", "html"))
    for words in ("made on 20", "1 error", SLIP, "What each waits for at worst", "Deadline", "Configured at"):
        assert words in text, words


def test_all_of_the_run_is_printed_below_what_is_wrong():
    copied()
    page = page_of("timeline")
    text, sheets = printed("timeline", page)
    for words in ("made on 20", "1 error, no warnings", SLIP):
        assert words in text, words
    spans = re.findall(r"slip\.txt: ([\d,.]+) to ([\d,.]+) ms", text)
    end = int(re.search(r'"end":(\d+)', page).group(1)) / 1000
    assert spans[0][0] == "0" and all(one[1] == other[0] for one, other in zip(spans, spans[1:])), spans
    assert float(spans[-1][1].replace(",", "")) >= end - .001, (spans, end)
    pictures = subprocess.run(["pdfimages", "-list", "timeline.pdf"], stdout=subprocess.PIPE, check=True).stdout.count(b" image ")
    lanes = "manager node 127", "configured x_axis node 1", "configured motion node 10", "bus load in each 10 ms"
    drawn = [text.count(words) for words in lanes]
    assert sheets >= 1 and (pictures or min(drawn)) >= len(spans), (sheets, pictures, drawn)
