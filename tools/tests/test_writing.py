"""Where files are written: never through a planted link, with the modes that are there; nothing of the user is lost."""
import json
import os
import shutil
import stat
from unittest import mock

from cobench_tools import manifest, output
from helper import example, file, is_refused, put, recorded, run
from killing import begin, fault_of, write


def export(*words):
    return run("export", "--cobench", recorded(), *words, "files", example("io_modules.txt"))


def check(*words):
    return run("check", "--cobench", recorded(), *words, example("io_modules.txt"))


# Links.

def test_no_planted_link_is_followed():
    put("victim", b"mine")
    os.makedirs("files/.export-aaaaaaaa")
    os.makedirs("other")
    put("other/trace.txt", b"mine")
    os.symlink("../../other", "files/.export-aaaaaaaa/old")
    os.symlink("../../other", "files/.export-aaaaaaaa/new")
    for name in ("11_infeed.dcf", ".11_infeed.dcf.new", ".11_infeed.dcf.old", "trace.txt", "export.json"):
        os.symlink("../victim", os.path.join("files", name))
    os.symlink("../other", "files/.export-bbbbbbbb")
    os.symlink("other", ".files.export-cccccccc")
    assert export()[0] == 0
    assert file("victim") == b"mine" and file("other", "trace.txt") == b"mine"
    assert not os.path.islink("files/trace.txt") and not os.path.islink("files/11_infeed.dcf")
    os.symlink("../victim", "files/.export.lock")
    is_refused(export(), "files/.export.lock: ")
    assert file("victim") == b"mine"


def test_a_planted_manifest_moves_and_removes_nothing_of_others():
    put("mine.txt", b"mine")
    os.makedirs("files/.export-aaaaaaaa/old")
    names = {"../mine.txt": manifest.digest_of(b"mine")}
    planted = {"script": {"sha256": ""}, "complete": False, "files": names, "before": {}}
    put("files/export.json", json.dumps(planted).encode())
    assert export()[0] == 0 and file("mine.txt") == b"mine"
    put("files/export.json", b"{")
    status, told, faults = check("--files", "files")
    assert status == 1 and told.count(b"\n") == 2 and not faults, told
    assert b"files/export.json:1: error: " in told and b"[edited]" in told, told
    assert export()[0] == 0 and check("--files", "files")[0] == 0


def test_a_report_goes_through_the_link_that_the_user_names():
    os.mkdir("far")
    put("far/report.xml", b"old")
    os.symlink("far/report.xml", "report.xml")
    put("victim", b"mine")
    for name in (".report.xml.new", ".report.xml.old", "far/.report.xml.new"):
        os.symlink(os.path.abspath("victim"), name)
    assert check("--junit", "report.xml")[0] == 0
    assert os.readlink("report.xml") == "far/report.xml" and file("far", "report.xml").startswith(b"<?xml")
    assert file("victim") == b"mine" and sorted(os.listdir("far")) == [".report.xml.new", "report.xml"]


def test_data_sheets_of_an_import_go_through_no_planted_link():
    assert export()[0] == 0
    put("victim", b"mine")
    dcf = os.path.join("files", "1_line.dcf")
    assert run("import", "--sheets", "made", dcf)[0] == 0
    os.mkdir("sheets")
    for name in os.listdir("made"):
        for end in ("new", "old"):
            os.symlink("../victim", os.path.join("sheets", f".{name}.{end}"))
    assert run("import", "--sheets", "sheets", dcf)[0] == 0 and file("victim") == b"mine"
    assert {name: file("sheets", name) for name in os.listdir("made")} == {name: file("made", name) for name in os.listdir("made")}


def test_modes_stay_and_new_files_have_that_of_the_umask():
    before = os.umask(0o027)
    try:
        output.write_file("report.xml", b"1")
        assert stat.S_IMODE(os.stat("report.xml").st_mode) == 0o640
        for mode in (0o664, 0o600, 0o444):
            os.chmod("report.xml", mode)
            output.write_file("report.xml", b"2")
            assert stat.S_IMODE(os.stat("report.xml").st_mode) == mode
        for is_shared in (False, True):
            begin(is_shared)
            assert stat.S_IMODE(os.stat("files/1_n1.dcf").st_mode) == 0o640
            os.chmod("files/1_n1.dcf", 0o664)
            os.chmod("files", 0o775)
            write(2)
            modes = [stat.S_IMODE(os.stat(each).st_mode) for each in ("files", "files/1_n1.dcf", "files/1_n1.bin")]
            assert modes == [0o775, 0o664, 0o640]
            shutil.rmtree("files")
    finally:
        os.umask(before)


def test_what_is_no_file_is_not_replaced():
    os.mkdir("files")
    os.mkfifo("files/trace.txt")
    assert fault_of(write, 1) == "files/trace.txt: it is there already, and is no file"
    assert os.listdir("files") == ["trace.txt"]
    assert fault_of(output.write_files, "nosuch", {"a": b""}) == "nosuch: No such file or directory"


def test_files_that_change_places_come_back_where_one_cannot():
    put("a", b"old a")
    put(".a.old", b"mine")
    real, new = os.replace, {"a": b"new a", "c": b"new c", "b": b"new b"}
    with mock.patch.object(os, "replace", lambda one, other: real(one if other != "b" else "nosuch", other)):
        assert fault_of(output.write_files, "", new) == "b: No such file or directory"
    assert file("a") == b"old a" and sorted(os.listdir(".")) == [".a.old", "a"] and file(".a.old") == b"mine"
