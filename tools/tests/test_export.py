"""`export`: what it tells and writes, and that it writes all of it or nothing."""
import json
import os
import re
import subprocess
import sys

from helper import COBTOOL, example, file, is_fine, is_refused, put, recorded, recorded_replies, run, stand_in

NODES = ("11_infeed", "12_outfeed", "1_line")
NAMES = sorted([name + end for name in NODES for end in (".bin", ".dcf")] + ["diagnostics.txt", "trace.log", "trace.txt"])
ALL = sorted([*NAMES, "export.json"])
QUERIES = b"diag\ntrace\n" + b"".join(b"cdcf %d\ndcf %d\n" % (node, node) for node in (1, 11, 12))
TOLD = b"no errors, no warnings; 3 of 3 nodes booted by 60.244 ms\n"
WRITTEN = b"9 files in files: DCF and concise DCF of 3 nodes, diagnostics.txt, trace.txt, trace.log\n"


def script():
    return run("expand", example("io_modules.txt"))[1] + QUERIES


def export(*words, given=b"", program=None, folder="files"):
    return run("export", "--cobench", program or recorded(), *words, folder, example("io_modules.txt"), given=given)


def changed(change):
    """A program that answers as cobench does, but for a change of its replies."""
    return stand_in(script(), change(recorded_replies(script())))


def with_diagnostic(replies, line):
    """The replies where the last `diag`, which has nothing to say, prints this line."""
    return (b"lines 1\n%s\n" % line).join(replies.rsplit(b"lines 0\n", 1))


def reply_to(query):
    """The lines of the reply to one of the queries."""
    answers = re.split(rb"(?m)^lines \d+\n", recorded_replies(script()))[-len(QUERIES.splitlines()):]
    return answers[QUERIES.splitlines().index(query)]


def test_export_writes_the_files_of_each_node():
    is_fine(export(), TOLD + WRITTEN)
    assert sorted(os.listdir("files")) == ALL
    for name in NODES:
        node = name.split("_")[0].encode()
        assert file("files", name + ".dcf") == reply_to(b"dcf " + node)
        assert file("files", name + ".bin") == bytes.fromhex(reply_to(b"cdcf " + node).decode())
    assert file("files", "diagnostics.txt") == b"" and file("files", "trace.txt") == reply_to(b"trace")
    is_fine(run("candump", "files/trace.txt"), file("files", "trace.log"))


def test_export_tells_of_files_of_other_nodes():
    export()
    put("files/7_old.dcf", b"")
    status, output, faults = export()
    assert status == 0 and output == TOLD + WRITTEN and "7_old.dcf is none of these nodes" in faults


def test_export_writes_nothing_where_something_is_wrong():
    changes = (
        (lambda replies: b"refused 7 Limit\n".join(replies.rsplit(b"ok\n", 1)), b"io_modules.txt:52: error: horizon 600000: refused 7"),
        (lambda replies: with_diagnostic(replies, b"E09 message outputs"), b"error: message outputs: cobench says so [E09]"),
        (lambda replies: replies.replace(b"note 12 configured", b"note 12 failed timeout"), b"error: node 12 outfeed: failed to boot"))
    for change, says in changes:
        status, output, faults = export(program=changed(change))
        assert status == 1 and says in output and output.endswith(b"nothing was written\n") and not faults, output
        assert not os.path.exists("files")


def test_export_writes_with_warnings_and_by_force():
    warned = changed(lambda replies: with_diagnostic(replies, b"W20 eds dio 3"))
    status, output, _ = export(program=warned)
    assert status == 0 and b"[W20]\nno errors, 1 warning; 3 of 3" in output and output.endswith(WRITTEN), output
    assert file("files", "diagnostics.txt") == b"W20 eds dio 3\n"
    assert export("--werror", program=warned)[0] == 1
    wrong = changed(lambda replies: with_diagnostic(replies, b"E09 message outputs"))
    status, output, _ = export("--force", program=wrong)
    assert status == 1 and output.endswith(WRITTEN)
    assert file("files", "diagnostics.txt") == b"E09 message outputs\n"
    assert export("--allow", "E09 message outputs", program=wrong)[0] == 0


def test_export_in_json_tells_what_it_wrote():
    status, output, _ = export("--json")
    whole = json.loads(output.decode())
    assert status == 0 and whole["folder"] == "files" and whole["files"] == NAMES and whole["findings"] == []


def test_export_says_why_it_cannot():
    is_refused(export(program=stand_in(b"", b"")), "ended with status 1", "stand_in: cobench: 2 Read")
    is_refused(export(program=changed(lambda replies: replies[:-5])), "the replies are cut")
    is_refused(export(program=changed(lambda replies: b"ok\n")), "1 replies to")
    is_refused(export(program=changed(lambda replies: b"hello\n")), "this is no reply: hello")
    is_refused(export(program="/nosuch"), "/nosuch: No such file")
    put("cut.txt", b"eds x 3\n")
    is_refused(run("export", "--cobench", "/nosuch", "files", "cut.txt"), "cut.txt:1: ", "0 of the 3 lines")
    assert not os.path.exists("files")


def test_export_replaces_all_files_or_none():
    put("files", b"")
    is_refused(export(), "files: File exists")
    os.remove("files")
    os.makedirs("files/trace.txt")
    put("files/11_infeed.dcf", b"old")
    is_refused(export(), "files/trace.txt: Is a directory")
    assert file("files", "11_infeed.dcf") == b"old" and sorted(os.listdir("files")) == ["11_infeed.dcf", "trace.txt"]
    os.rmdir("files/trace.txt")
    is_fine(export(), TOLD + WRITTEN)
    assert sorted(os.listdir("files")) == ALL and file("files", "11_infeed.dcf") == reply_to(b"dcf 11")


def test_export_to_a_disk_that_fills_up_writes_nothing():
    os.mkdir("files")
    put("files/11_infeed.dcf", b"old")
    words = [sys.executable, COBTOOL, "export", "--cobench", recorded(), "files", example("io_modules.txt")]
    done = subprocess.run(["sh", "-c", "ulimit -f 8; exec \"$@\"", "sh", *words], stdout=subprocess.PIPE, stderr=subprocess.PIPE)
    assert done.returncode == 2 and done.stdout == b"", done
    assert done.stderr == b"cobtool: files/1_line.dcf: File too large\n", done.stderr
    assert os.listdir("files") == ["11_infeed.dcf"] and file("files", "11_infeed.dcf") == b"old"


def test_explain_takes_the_trace_of_an_export():
    is_fine(export(), TOLD + WRITTEN)
    whole = run("explain", example("io_modules.txt"), example("io_modules.replies.txt"))
    is_fine(run("explain", example("io_modules.txt"), "files/trace.txt"), whole[1])
    is_fine(run("explain", example("io_modules.txt"), "-", given=file("files", "trace.txt")), whole[1])


def test_export_says_that_its_words_are_swapped():
    put("net.txt", b"horizon 1000\n")
    is_refused(run("export", "net.txt", "files"), "files: No such file", "DIR stands first: cobtool export files net.txt")
    is_refused(run("export", "nosuch", "files"), "files: No such file or directory")
