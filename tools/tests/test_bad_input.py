"""Each command on files that are no use to it, and on outputs that fail: one line and a status, and nothing half written."""
import os
import re
import subprocess
import sys

from helper import BINARY, COBTOOL, Skipped, example, file, is_refused, kept, put, recorded, run, run_alone

from cobench_tools.main import COMMANDS

SIXTY_FOUR_MIB = 64 << 20

# How each command is called, with the roles of its files. `live` and `lsp` serve until they are ended, `bus` needs a
# bus: these are tested by themselves.
CALLS = {
    "check": ("check", "--cobench", recorded(), "SCRIPT"),
    "export": ("export", "--cobench", recorded(), "files", "SCRIPT"),
    "import": ("import", "DCF"),
    "matrix": ("matrix", "--cobench", recorded(), "SCRIPT"),
    "dbc": ("dbc", "--cobench", recorded(), "SCRIPT"),
    "diff": ("diff", "--cobench", recorded(), "SCRIPT", "SCRIPT"),
    "load": ("load", "--allow", "unbounded", "--cobench", recorded(), "SCRIPT"),
    "expand": ("expand", "SCRIPT"),
    "eds": ("eds", "x", "EDS"),
    "start": ("start", "EDS"),
    "refusals": ("refusals", "SCRIPT", "REPLIES"),
    "explain": ("explain", "SCRIPT", "REPLIES"),
    "stats": ("stats", "--script", "SCRIPT", "REPLIES"),
    "timeline": ("timeline", "--script", "SCRIPT", "REPLIES"),
    "candump": ("candump", "REPLIES"),
    "conform": ("conform", "--cobench", recorded(), "SCRIPT", "LOG"),
    "man": ("man",),
    "completion": ("completion",),
}
WITHOUT_A_TEST_HERE = {"live", "lsp", "bus"}
SILENT = {"refusals", "diff"}   # where there is nothing to tell


def good_files():
    """A file for each role."""
    put("x.eds", file(example("digital_io.eds")))
    put("x.dcf", file(example("digital_io.eds")) + b"[DeviceComissioning]\nNodeID=5\nNodeName=pump\nBaudrate=250\n")
    put("x.log", run("candump", example("io_modules.replies.txt"))[1])
    return {"SCRIPT": example("io_modules.txt"), "REPLIES": example("io_modules.replies.txt"), "EDS": "x.eds", "DCF": "x.dcf",
            "LOG": "x.log"}


def calls(path, roles=("SCRIPT", "REPLIES", "EDS", "DCF", "LOG")):
    """Each call of each command in which one file is this one, and the others are good."""
    good = good_files()
    for call in CALLS.values():
        for role in roles:
            if role in call:
                yield [path if word == role else good.get(word, word) for word in call]


def good_calls():
    good = good_files()
    return {name: [good.get(word, word) for word in call] for name, call in CALLS.items()}


def test_each_command_is_called_here():
    assert set(CALLS) | WITHOUT_A_TEST_HERE >= set(COMMANDS), set(COMMANDS) - set(CALLS)
    for name, words in good_calls().items():
        status, output, faults = run(*words)
        assert status == 0 and bool(output) == (name not in SILENT) and not faults, (name, faults)


def test_files_that_are_not_there_are_told():
    for words in calls("nosuch"):
        is_refused(run(*words), "nosuch: No such file or directory")


def test_folders_are_told():
    os.mkdir("folder")
    for words in calls("folder"):
        is_refused(run(*words), "folder: Is a directory")


def test_files_that_cannot_be_read_are_told():
    put("secret", b"diag\n")
    os.chmod("secret", 0)
    if os.access("secret", os.R_OK):
        raise Skipped("this user reads every file")
    for words in calls("secret"):
        is_refused(run(*words), "secret: Permission denied")


def test_binary_files_are_told():
    for name, data in (("binary", BINARY), ("zeros", bytes(5000)), ("zeros", bytes(SIXTY_FOUR_MIB))):
        put(name, data)
        for words in calls(name):
            is_refused(run(*words), f"{name}: this is no text")
    assert not os.path.exists("files")


def test_utf_16_is_told():
    for encoding in ("utf-16", "utf-16-le", "utf-16-be"):
        put("wide", "eds drive 2\r\n[1017]\r\nDataType=0x0006\r\n".encode(encoding))
        for words in calls("wide"):
            done = run(*words)
            is_refused(done, "wide: this is ")


def test_files_of_64_mib_are_told():
    put("large", b"x" * SIXTY_FOUR_MIB + b"\n")
    for words in calls("large"):
        is_refused(run(*words), "large")
    put("large", b"x\n" * (SIXTY_FOUR_MIB // 2))
    for words in calls("large", ("REPLIES", "EDS", "DCF", "LOG")):
        is_refused(run(*words), "large")
    for name in ("check", "refusals"):
        words = ["large" if word == "SCRIPT" else good_files().get(word, word) for word in CALLS[name]]
        is_refused(run(*words), "large: it has over 4,000,000 commands")


def test_cut_files_are_told():
    good = good_files()
    script = run("expand", good["SCRIPT"])[1]
    put("cut", script[:script.index(b"ParameterName")])
    for words in calls("cut", ("SCRIPT",)):
        done = run(*words)
        assert words[0] == "refusals" or done[0] == 2 and "cut:1: eds dio" in done[2] and "the script ends after" in done[2], done
    put("cut", file(good["REPLIES"])[:-4])
    for words in calls("cut", ("REPLIES",)):
        done = run(*words)
        assert done[0] in (1, 2) and "cut" in done[2] + done[1].decode(), done
        assert done[0] == 1 or not done[1] and len(done[2].splitlines()) == 1
    put("cut", b"")
    for words in calls("cut", ("REPLIES", "LOG")):
        assert run(*words)[0] == (1 if words[0] == "refusals" else 2), words
    put("cut", run("candump", good["REPLIES"])[1][:-4])
    for words in calls("cut", ("LOG",)):
        is_refused(run(*words), "cut:204: the last line is cut")


def test_arguments_that_are_swapped_are_told():
    good = good_files()
    for name, words in (("refusals", ["refusals", good["REPLIES"], good["SCRIPT"]]), ("explain", ["explain", good["REPLIES"], good["SCRIPT"]]), ("eds", ["eds", "x.eds", "x"]),
                        ("stats", ["stats", "--script", good["REPLIES"], good["SCRIPT"]]),
                        ("timeline", ["timeline", "--script", good["REPLIES"], good["SCRIPT"]]),
                        ("conform", ["conform", "--cobench", recorded(), good["LOG"], good["SCRIPT"]]),
                        ("export", ["export", "--cobench", recorded(), good["SCRIPT"], "files"])):
        is_refused(run(*words))
    assert not os.path.exists("files")


def with_cr(path):
    return file(path).replace(b"\n", b"\r\n")


def test_lines_that_end_by_cr_lf_are_those_that_end_by_lf():
    before = {name: run(*words) for name, words in good_calls().items()}
    for name in ("digital_io.eds", "line_controller.eds"):
        put(name, with_cr(example(name)))
    put("io_modules.txt", with_cr(example("io_modules.txt")))
    put("io_modules.replies.txt", with_cr(example("io_modules.replies.txt")))
    for name in ("x.eds", "x.dcf", "x.log"):
        put(name, with_cr(name))
    there = {"EDS": "x.eds", "DCF": "x.dcf", "LOG": "x.log", "SCRIPT": "io_modules.txt", "REPLIES": "io_modules.replies.txt"}
    for name, call in CALLS.items():
        status, output, faults = run(*[there.get(word, word) for word in call])
        assert status == before[name][0] and not faults, (name, faults)
        assert without_day(output.replace(b"\r", b"")) == without_day(before[name][1]), name


def without_day(output):
    """An output without what a page says of its day and of its script's version."""
    return re.sub(rb'"made":"[^"]*"', b"", output)


def test_a_full_disk_is_told():
    if not os.path.exists("/dev/full"):
        raise Skipped("there is no /dev/full")
    for name, words in good_calls().items():
        expected = (0, b"") if name in SILENT else (2, b"cobtool: the standard output: No space left on device\n")
        for settings in ({}, {"PYTHONUNBUFFERED": "1"}):
            with open("/dev/full", "wb") as full:
                done = run_alone(*words, stdout=full, stderr=subprocess.PIPE, env={**os.environ, **settings})
            assert (done.returncode, done.stderr) == expected, (name, settings, done)


def in_shell(command, words):
    """What `subprocess.run` gives for a command of the shell that runs cobtool, with these words, as "$0" "$@"."""
    return subprocess.run(["sh", "-c", command, sys.executable, COBTOOL, *words], stdout=subprocess.PIPE, stderr=subprocess.PIPE)


def test_closed_streams_are_told():
    for name, words in good_calls().items():
        done = in_shell('"$0" "$@" >&-', words)
        assert (done.returncode, done.stderr) == (2, b"cobtool: the standard output is closed\n"), (name, done)
    done = in_shell('"$0" "$@" <&-', ["expand", "-"])
    assert (done.returncode, done.stdout, done.stderr) == (2, b"", b"cobtool: the standard input is closed\n")
    done = in_shell('"$0" "$@" 2>&-', ["expand", "nosuch"])
    assert (done.returncode, done.stdout, done.stderr) == (2, b"", b"")


def test_who_reads_the_output_may_stop():
    for name, words in good_calls().items():
        done = in_shell('{ "$0" "$@"; echo status $? >&2; } | true', words)
        assert done.stderr == b"status 0\n", (name, done)
    words = ["refusals", example("servo_axes.txt"), example("servo_axes.replies.txt")]
    assert in_shell('{ "$0" "$@"; echo status $? >&2; } | true', words).stderr == b"status 1\n"


def test_no_fault_is_of_cobtool_itself():
    """Replies that no cobench gives, but that have the form of replies."""
    script = kept("slips.txt")
    put("net.txt", script)
    for number in range(1, 10):
        name = "Memory Syntax Range Unknown Taken InUse Limit BadByte Truncated".split()[number - 1].encode()
        put("replies.txt", b"refused %d %s\n" % (number, name) * 42)
        status, _, faults = run("refusals", "net.txt", "replies.txt")
        assert status == 1 and not faults, faults
    put("replies.txt", b"ok\n" * 42)
    done = run("refusals", "net.txt", "replies.txt")
    assert done[0] == 2 and "cobtool itself" not in done[2], done
