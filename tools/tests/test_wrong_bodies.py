"""The wrong bodies that the gate tries: each can be planted, and the page counts and lists them as they are."""
import glob
import os
import re

from helper import ROOT, file

PAIR = re.compile(r"(?m)(?:^file: (?P<file>.*)\n)?^old: (?P<old>.*)\nnew: (?P<new>.*)\n")


def names_by_crate():
    """The names of the wrong bodies that the gate tries, by crate."""
    names = {}
    for path in glob.glob(os.path.join(ROOT, "crates", "*", "must-fail", "*.edit")):
        folder, name = os.path.split(path)
        names.setdefault(os.path.basename(os.path.dirname(folder)), set()).add(name[:-len(".edit")])
    return names


def planted(crate, name):
    """The files of a crate with a wrong body planted; each line that goes has to stand once in its file."""
    text = file(ROOT, "crates", crate, "must-fail", name + ".edit").decode()
    assert PAIR.sub("", text) == "", f"{crate}/{name} has a line that says nothing"
    files, at = {}, None
    for pair in PAIR.finditer(text):
        at = pair["file"] or at
        before = files.get(at) or file(ROOT, "crates", crate, at).decode()
        assert before.count(pair["old"]) == 1, (crate, name, at, pair["old"])
        files[at] = before.replace(pair["old"], pair["new"])
    return files


def page(*parts):
    return file(ROOT, *parts).decode()


def test_each_wrong_body_can_be_planted():
    for crate, names in names_by_crate().items():
        for name in names:
            for at, text in planted(crate, name).items():
                assert text != file(ROOT, "crates", crate, at).decode(), f"{crate}/{name} changes nothing in {at}"


def test_the_page_counts_the_wrong_bodies_that_the_gate_tries():
    names = names_by_crate()
    words = f"The gate tries {sum(map(len, names.values()))} wrong bodies, those in the `must-fail` folders of {len(names)} crates."
    assert words in page("docs", "proved.md"), words


def test_none_that_was_tried_once_is_tried_by_the_gate():
    names = names_by_crate()
    listed = page("docs", "proved.md").partition("## Wrong bodies that were tried once\n")[2]
    rows = re.findall(r"(?m)^- `(\w+)`: (.*)$", listed)
    assert len(rows) > 30
    for crate, words in rows:
        both = set(re.findall(r"`(\w+)`", words)) & names.get(crate, set())
        assert not both, (crate, both)
