"""`diff`: what changes from one script to another, and from git's version of one."""
import os
import re
import shutil
import subprocess

import networks
from helper import BINARY, EXAMPLES, ROOT, Skipped, answers, example, file, is_fine, is_refused, kept, put, recorded, run

# What is changed in io_modules.txt: messages, a sink, parameters, events and the horizon.
CHANGES = (
    ("message outfeed_inputs 12 1 255 50 0 0", "message outfeed_inputs 12 1 255 50 0 190"),
    ("message infeed_inputs 11 1 255 50 0 0", "message infeed_inputs 11 1 245 50 0 0"),
    ("sink outputs 2 12 6200 1", "sink outputs 1 12 6200 1"),
    ("param 12 6206 1 0xFE", "param 12 6206 1 0x0F"),
    ("param 1 1016 2 0x000C00FA\n", ""),
    ("event 7 153000", "event 7 154000"),
    ("event 10 560000 nmt 1 1\n", "event 10 560000 nmt 1 1\nevent 11 570000 nmt 2 0\n"),
    ("horizon 600000", "horizon 500000"),
)


def diff(*words):
    return run("diff", "--cobench", recorded(), *words)


def changed(text, changes=CHANGES):
    for old, new in changes:
        assert old.encode() in text, old
        text = text.replace(old.encode(), new.encode())
    return text


def copy_example():
    """io_modules.txt with its data sheets in the folder of this test."""
    for name in ("io_modules.txt", "digital_io.eds", "line_controller.eds"):
        shutil.copy(os.path.join(EXAMPLES, name), name)
    return file("io_modules.txt")


def test_diff_tells_what_changes():
    put("new.txt", changed(copy_example()))
    status, output, faults = diff("io_modules.txt", "new.txt")
    assert status == 1 and not faults and output == kept("io_modules.diff.txt"), output.decode()


def test_diff_the_other_way_round_tells_the_opposite():
    put("new.txt", changed(copy_example()))
    there, back = (diff(*words)[1].decode() for words in (("io_modules.txt", "new.txt"), ("new.txt", "io_modules.txt")))
    assert sorted(map(turned, re.findall(r"(?m)^    .*: .* -> .*|^  [+-] .*", there))) == sorted(
        re.findall(r"(?m)^    .*: .* -> .*|^  [+-] .*", back.replace("before in no PDO", "now in no PDO")))


def turned(line):
    """A line of `diff` as it is the other way round."""
    found = re.fullmatch(r"(    .*): (.*) -> (.*)", line)
    if found:
        return "{}: {} -> {}".format(found.group(1), found.group(3), found.group(2))
    return line.replace("  + ", "  # ").replace("  - ", "  + ").replace("  # ", "  - ")


def test_diff_tells_nothing_of_what_is_equal():
    text = copy_example()
    put("other.txt", b"# A comment, and the commands in another order.\nversion 1\n" + text.replace(b"bitrate 250\n", b"") + b"bitrate 250\n")
    is_fine(diff("io_modules.txt", "other.txt"), b"")
    is_fine(diff(example("first_network.txt"), example("first_network.txt")), b"")


def test_diff_of_data_sheets_and_settings():
    text = file(EXAMPLES, "first_network.txt")
    put("old.txt", text)
    more = b"eds drive 5\n[1017]\nDataType=0x0006\nDefaultValue=5\nHighLimit=200\n[2000]\n"
    put("new.txt", text.replace(b"eds drive 2\n[1017]\nDataType=0x0006\n", more) + b"manager 126 20000 0 500\nnode 6 valve drive\n")
    status, output, _ = diff("old.txt", "new.txt")
    assert status == 1 and output.decode() == """\
Settings
  number of the manager: 127 -> 126
  SYNC each [us]: 0 -> 20000

Data sheets
  drive
    1017h:00: default none -> 5
    1017h:00: high limit none -> 200
    + entry 2000h:00

Nodes and their files
  node 5 pump: 5_pump.dcf changes
    its data sheet drive is other
  + node 6 valve, of data sheet drive

Trace
  the same up to 0.340 ms, 5 lines
  - 0.395 ms: 77F manager boot-up
  + 0.395 ms: 706 valve boot-up
  other in 10 lines before and 261 lines now
""", output.decode()


def test_diff_has_the_values_that_cobench_writes():
    """The entries of which `diff` tells, beside those whose bytes are others in the concise DCFs of generated networks."""
    for seed in (4, 13):
        network = networks.Network(seed)
        new = network.script() + b"".join(b"param %d 1017 0 7\n" % node for node in network.nodes)
        new = re.sub(rb"(?m)^(message \w+ .*) 0$", rb"\1 3A1", new, 1)
        put("old.txt", network.script())
        put("new.txt", new)
        expected = set()
        for node in network.nodes:
            old_values, new_values = (concise_values(text, node) for text in (network.script(), new))
            expected |= {(node, key) for key in set(old_values) | set(new_values) if old_values.get(key) != new_values.get(key)}
        assert len(expected) >= len(network.nodes) and told_values(diff("old.txt", "new.txt")[1].decode()) == expected, seed


def concise_values(script, node):
    """What the concise DCF of a node writes last to each entry: read here, as the standard has it."""
    data = bytes.fromhex(b"".join(answers(recorded(), script, b"cdcf %d\n" % node)[0]).decode())
    found, place = {}, 4
    while place < len(data):
        size = int.from_bytes(data[place + 3:place + 7], "little")
        found["%04Xh:%02X" % (data[place] | data[place + 1] << 8, data[place + 2])] = data[place + 7:place + 7 + size]
        place += 7 + size
    return found


def told_values(text):
    """The node and the entry of each line that tells of a value in a file."""
    found, node = set(), None
    for line in text.split("Nodes and their files\n")[1].split("\n\n")[0].splitlines():
        title, entry = re.match(r"  node (\d+)", line), re.match(r"    ([0-9A-F]{4}h:[0-9A-F]{2})", line)
        node = int(title.group(1)) if title else node
        found |= {(node, entry.group(1))} if entry else set()
    return found


def git(*words):
    names = {f"GIT_{who}_{what}": "tester@example.org" for who in ("AUTHOR", "COMMITTER") for what in ("NAME", "EMAIL")}
    subprocess.run(["git", *words], check=True, stdout=subprocess.DEVNULL, env={**os.environ, **names, "HOME": os.getcwd()})


def work_tree():
    """A work tree in whose first version the network is that of the example; its script stands in a folder."""
    if not shutil.which("git"):
        raise Skipped("git isn't installed")
    os.mkdir("net")
    os.chdir("net")
    copy_example()
    put("line.txt", b"<io_modules.txt\n")
    os.chdir("..")
    git("init", "-q")
    git("add", ".")
    git("commit", "-q", "-m", "first")


def test_diff_takes_a_version_of_git():
    work_tree()
    for words in (("--git", "HEAD", "net/line.txt"), ("HEAD:net/line.txt", "net/line.txt"), ("HEAD:net/line.txt", "HEAD:./net/io_modules.txt")):
        is_fine(diff(*words), b"")
    put("net/io_modules.txt", changed(file("net/io_modules.txt")))
    for words in (("--git", "HEAD", "net/line.txt"), ("HEAD:net/io_modules.txt", "net/line.txt")):
        assert diff(*words) == (1, kept("io_modules.diff.txt"), ""), words
    put("net/io_modules.txt", file(EXAMPLES, "io_modules.txt"))
    put("net/digital_io.eds", file("net/digital_io.eds").replace(b"ProductName=DIO-8", b"ProductName=DIO-9"))
    output = diff("--git", "HEAD", "net/line.txt")[1].decode()
    assert output.startswith("Data sheets\n  dio\n    other lines, which give no entry\n"), output
    os.chdir("net")
    assert diff("HEAD:./line.txt", "line.txt")[1].decode() == output


def test_diff_says_what_git_says():
    work_tree()
    put("net/new.txt", b"eds dio <../../digital_io.eds\n")
    put("net/lost.txt", b"\neds dio <lost.eds\n")
    git("add", "net/new.txt", "net/lost.txt")
    git("commit", "-q", "-m", "second")
    for words, says in ((("HEAD:nosuch.txt", "net/line.txt"), "'nosuch.txt' does not exist in 'HEAD'"),
                        (("NOSUCH:net/line.txt", "net/line.txt"), "NOSUCH"),
                        (("--git", "HEAD~1", "net/new.txt"), "net/new.txt"), (("--git", "HEAD", "net/new.txt"), "outside of the work tree"),
                        (("--git", "HEAD", "net/lost.txt"), "'net/lost.eds' does not exist in 'HEAD'"),
                        (("--git", "HEAD", "-"), "git has no version of the standard input")):
        is_refused(diff(*words), says)
    os.environ["GIT_CEILING_DIRECTORIES"] = os.path.dirname(os.getcwd())
    shutil.rmtree(".git")
    is_refused(diff("--git", "HEAD", "net/line.txt"), "not a git repository")


def test_the_textconv_line_of_the_readme_shows_the_matrix():
    work_tree()
    readme = file(ROOT, "tools", "README.md").decode()
    attributes = re.search(r"(?m)^    echo '(.*)' >> \.gitattributes$", readme).group(1)
    put(".gitattributes", f"{attributes}\n".replace("examples/", "net/").encode())
    line = re.search(r"(?m)^    git config diff\.cobench\.textconv (.*)$", readme).group(1).replace("examples", "net")
    cobtool = f"{os.path.join(ROOT, 'tools', 'cobtool')} "
    subprocess.run(["sh", "-c", f"git config diff.cobench.textconv {line}".replace("cobtool ", cobtool)], check=True)
    put("net/io_modules.txt", changed(file("net/io_modules.txt"), CHANGES[:1]))
    shown = subprocess.run(["git", "diff"], stdout=subprocess.PIPE, env={**os.environ, "COBENCH": recorded()}, check=True).stdout.decode()
    assert re.search(r"(?m)^-18Ch +outfeed_inputs ", shown) and re.search(r"(?m)^\+190h +outfeed_inputs ", shown), shown


def test_diff_on_bad_input():
    put("binary", BINARY)
    put("cut.txt", b"eds x 3\n")
    fine = example("first_network.txt")
    for words, says in (((fine,), "two scripts are compared"), ((fine, fine, fine), "two scripts are compared"),
                        (("--git", "HEAD", fine, fine), "two scripts are compared"), ((fine, "nosuch.txt"), "nosuch.txt: No such file"),
                        (("binary", fine), "binary: this is no text"), ((fine, "cut.txt"), "0 of the 3 lines"), (("-", "-"), "standard input")):
        is_refused(diff(*words), says)
