"""What an export says of its files in `export.json`, and what `check --files` says of them later."""
import hashlib
import json
import os

from cobench_tools import export_folder, manifest
from helper import example, file, is_fine, is_refused, put, recorded, run
from killing import NOTES, begin, write


def export(*words):
    return run("export", "--cobench", recorded(), *words, "files", example("io_modules.txt"))


def check(*words):
    return run("check", "--cobench", recorded(), *words, example("io_modules.txt"))


def test_a_damaged_manifest_is_none():
    fine = {"script": {"sha256": "0"}, "complete": False, "files": {"trace.txt": "0" * 64}, "before": {}}
    assert manifest.taken_from(json.dumps(fine).encode()).before == {}
    files = [], {"a": "0" * 64}, {"../trace.txt": "0" * 64}, {"trace.txt": "0"}, {"trace.txt": 0}
    others = {"script": 1}, {"script": {"sha256": 1}}, {"before": None}, *({"files": each} for each in files)
    for odd in ({}, [], 1, *({**fine, **each} for each in others)):
        is_damaged(json.dumps(odd).encode())
    for odd in (b"[" * 100000, b"\xff", b"", b"{", b"\x00"):
        is_damaged(odd)


def is_damaged(data):
    try:
        manifest.taken_from(data)
    except manifest.Damaged:
        return
    raise AssertionError(data)


def test_the_manifest_has_the_digests_of_files_and_script():
    assert export()[0] == 0
    said = json.loads(file("files", "export.json").decode())
    others = sorted({*os.listdir("files")} - {"export.json"})
    assert sorted(said["files"]) == others and said["complete"] is True and said["script"]["name"] == "io_modules.txt"
    assert said["files"] == {name: hashlib.sha256(file("files", name)).hexdigest() for name in others}
    assert said["script"]["sha256"] == hashlib.sha256(run("expand", example("io_modules.txt"))[1]).hexdigest()


def test_a_folder_of_an_export_alone_changes_in_one_step():
    if not export_folder.rename_of_system():
        return
    begin(False)
    before = os.stat("files").st_ino
    write(2)
    assert os.stat("files").st_ino != before
    put("files/notes.txt", NOTES)
    before = os.stat("files").st_ino
    write(1)
    assert os.stat("files").st_ino == before and file("files", "notes.txt") == NOTES


def test_check_tells_files_that_are_no_export_of_the_script():
    is_refused(check("--files", "files"), "files: there is no such folder")
    assert export()[0] == 0
    summary = b"no errors, no warnings; 3 of 3 nodes booted by 60.244 ms\n"
    is_fine(check("--files", "files"), summary)
    put("files/1_line.dcf", file("files", "1_line.dcf").replace(b"[1000]\n", b"[1000]\n;\n", 1))
    os.remove("files/trace.txt")
    put("files/9_lamp.bin", b"")
    put("files/notes.txt", b"")
    status, told, faults = check("--files", "files")
    line = 1 + file("files", "1_line.dcf").split(b"\n").index(b"[1000]") + 1
    assert told.splitlines()[:-1] == [b"files/1_line.dcf:%d: error: isn't as it was exported [edited]" % line,
                                      b"files/9_lamp.bin:1: error: is of no node of the script [stale]",
                                      b"files/trace.txt:1: error: isn't there [missing]"] and status == 1 and not faults, told
    allowed = [word for words in ("edited", "stale 9_lamp.bin", "missing trace.txt") for word in ("--allow", words)]
    assert check("--files", "files", *allowed)[0] == 0
    os.remove("files/export.json")
    assert b"files/export.json:1: error: isn't there" in check("--files", "files")[1]
    found = json.loads(check("--json", "--files", "files")[1].decode())["findings"]
    assert {(each["code"], each["words"], each["part"]) for each in found} >= {("missing", "missing export.json", "files")}


def test_check_tells_files_of_another_state_of_the_script():
    assert export()[0] == 0
    said = json.loads(file("files", "export.json").decode())
    put("files/trace.txt", b"of before\n")
    said["files"]["trace.txt"] = manifest.digest_of(b"of before\n")
    put("files/export.json", json.dumps(said).encode())
    stale = b"files/trace.txt:1: error: isn't what the script makes now [stale]"
    assert check("--files", "files")[1].splitlines()[0] == stale
    put("files/export.json", json.dumps({**said, "complete": False, "before": {"trace.txt": said["files"]["trace.txt"]},
                                         "files": {**said["files"], "trace.txt": "0" * 64}}).encode())
    told = check("--files", "files")[1].splitlines()
    assert [line.split(b" [")[-1] for line in told[:-1]] == [b"mix]", b"mix]"], told
    assert told[0].startswith(b"files/export.json:1: "), told
