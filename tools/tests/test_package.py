"""What is installed: the wheel, the packages, the manual page, the completions; and the program in place."""
import csv
import gzip
import os
import shutil
import subprocess
import sys
import tarfile
import zipfile

from helper import COBTOOL, TOOLS, Skipped, example, is_fine, put, recorded, run, run_alone

import building
from cobench_tools.main import COMMANDS
from cobench_tools.session import BUILT


def test_the_program_in_place_needs_nothing():
    os.symlink(COBTOOL, "linked")
    for program in (COBTOOL, "./linked"):
        done = subprocess.run([program, "--version"], stdout=subprocess.PIPE, stderr=subprocess.PIPE)
        assert (done.returncode, done.stdout, done.stderr) == (0, b"cobtool 0.1.0\n", b""), done


def test_the_wheel_has_all_of_the_package():
    name = building.build_wheel(".")
    with zipfile.ZipFile(name) as wheel:
        wheel.extractall("installed")
        names = wheel.namelist()
    assert name == "cobtool-0.1.0-py3-none-any.whl" and not any("__pycache__" in each for each in names)
    record = dict((row[0], row) for row in csv.reader(open("installed/cobtool-0.1.0.dist-info/RECORD")))
    assert set(record) == set(names) and all(int(row[2] or 0) == os.path.getsize(f"installed/{each}") or "RECORD" in each
                                             for each, row in record.items())
    os.environ["SOURCE_DATE_EPOCH"] = "1770112800"      # both pages are made at one time
    page = run("timeline", example("io_modules.replies.txt"))[1]
    words = "import sys; sys.path.insert(0, 'installed'); from cobench_tools.main import main; sys.exit(main())"
    done = subprocess.run([sys.executable, "-I", "-c", words, "timeline", example("io_modules.replies.txt")], stdout=subprocess.PIPE)
    assert done.returncode == 0 and done.stdout == page
    assert open("installed/cobtool-0.1.0.data/data/share/man/man1/cobtool.1").read().startswith(".TH COBTOOL 1 ")


def test_the_source_archive_builds_the_same_wheel():
    name = building.build_sdist(".")
    assert name == "cobtool-0.1.0.tar.gz"
    with tarfile.open(name) as archive:
        archive.extractall(".")
    folder = "cobtool-0.1.0"
    assert open(f"{folder}/PKG-INFO").read().startswith("Metadata-Version: 2.1\nName: cobtool\nVersion: 0.1.0\n")
    words = "import building; print(building.build_wheel('..'))"
    done = subprocess.run([sys.executable, "-c", words], cwd=folder, stdout=subprocess.PIPE, check=True)
    built = done.stdout.decode().strip()
    os.mkdir("here")
    with open(built, "rb") as one, open(os.path.join("here", building.build_wheel("here")), "rb") as other:
        assert one.read() == other.read()
    assert subprocess.run([f"{folder}/cobtool", "--version"], stdout=subprocess.PIPE).stdout == b"cobtool 0.1.0\n"


def test_the_manual_page_has_all_words():
    status, output, faults = run("man")
    text = output.decode()
    assert status == 0 and not faults
    for command in [*COMMANDS, "bus scan", "bus read"]:
        assert f"\n.SS {command}\n" in text, command
    for word in ("\\fB\\-\\-allow\\-from\\fR \\fIFILE\\fR", "\n  cobtool candump network.txt > boot.log\n", "\n.SH EXIT STATUS\n"):
        assert word in text, word


def test_the_manual_page_is_set_without_a_warning():
    if not shutil.which("groff"):
        raise Skipped("groff isn't installed")
    put("cobtool.1", run("man")[1])
    done = subprocess.run(["groff", "-man", "-ww", "-Tutf8", "cobtool.1"], stdout=subprocess.PIPE, stderr=subprocess.PIPE)
    assert done.returncode == 0 and not done.stderr, done.stderr
    assert "cobtool check --werror --allow 'E02 default 5' network.txt" in done.stdout.decode()


def completed(*words):
    """What bash offers for these words, of which the last one is not at its end."""
    script = "source completion; COMP_WORDS=(\"$@\"); COMP_CWORD=$(($# - 1)); _cobtool 2>/dev/null; printf '%s\\n' \"${COMPREPLY[@]}\""
    done = subprocess.run(["bash", "-c", script, "bash", "cobtool", *words], stdout=subprocess.PIPE, stderr=subprocess.PIPE)
    assert done.returncode == 0 and not done.stderr, done
    return done.stdout.decode().split()


def test_bash_completes_commands_options_and_files():
    if not shutil.which("bash"):
        raise Skipped("bash isn't installed")
    put("completion", run("completion")[1])
    put("net.txt", b"")
    assert completed("ex") == ["export", "expand", "explain"]
    assert completed("check", "--all") == ["--allow", "--allow-from"]
    assert completed("stats", "--format", "") == ["text", "markdown", "csv"]
    assert completed("bus", "sc") == ["scan"] and completed("bus", "read", "--bl") == ["--block"]
    assert completed("check", "ne") == ["net.txt"] and completed("check", "--werror", "n") == ["net.txt"]


def test_zsh_takes_its_completion():
    if not shutil.which("zsh"):
        raise Skipped("zsh isn't installed")
    put("_cobtool", run("completion", "--shell", "zsh")[1])
    script = "compdef() { print -r -- $*; }; source ./_cobtool; print -r -- ${functions[_cobtool]}"
    done = subprocess.run(["zsh", "-f", "-c", script], stdout=subprocess.PIPE, stderr=subprocess.PIPE)
    assert done.returncode == 0 and not done.stderr and done.stdout.startswith(b"_cobtool cobtool\n"), done
    for word in (b"'check:say all that is wrong", b"'*--allow[", b"'--format[", b":(text markdown csv)'"):
        assert word in done.stdout, word


def program():
    """The built cobench, or one that answers as it does to its two words and to one script."""
    if os.access(BUILT, os.X_OK):
        return BUILT
    put("cobench", b"#!/bin/sh\ncase \"$1\" in\n--version) echo cobench 0.1.0;;\n"
        b"--help) printf 'Usage: cobench -h\\n\\nit'\\''s .so\\n';;\n*) exec " + recorded().encode() + b";;\nesac\n")
    os.chmod("cobench", 0o755)
    return os.path.abspath("cobench")


def package(folder):
    """Makes the packages, and gives the names of their files."""
    done = subprocess.run([os.path.join(TOOLS, "package"), "--cobench", program(), folder], stdout=subprocess.PIPE)
    assert done.returncode == 0
    return done.stdout.decode().split()


def checks_the_example(prefix):
    """The installed cobtool runs the installed cobench over an example; nothing of this checkout is used."""
    path = os.pathsep.join([f"{prefix}/bin", os.environ["PATH"]])
    done = subprocess.run(["cobtool", "check", example("slip.txt")], stdout=subprocess.PIPE, stderr=subprocess.PIPE,
                          env={"PATH": path})
    assert done.returncode == 1 and not done.stderr and b"[E09]" in done.stdout, done
    done = subprocess.run([f"{prefix}/bin/cobtool", "--version"], stdout=subprocess.PIPE, env={"PATH": path})
    assert done.stdout == b"cobtool 0.1.0\n"


def test_the_archive_is_unpacked_and_runs():
    names = package("made")
    assert names[0] == "made/cobench-0.1.0-linux-x86_64.tar.gz"
    assert not subprocess.run(["sha256sum", "--quiet", "-c", "SHA256SUMS"], cwd="made").returncode
    with tarfile.open(names[0]) as archive:
        archive.extractall(".")
    checks_the_example(os.path.abspath("cobench-0.1.0-linux-x86_64"))
    with gzip.open("cobench-0.1.0-linux-x86_64/share/man/man1/cobench.1.gz") as page:
        assert b".TH COBENCH 1" in page.read()
    first = [open(name, "rb").read() for name in names]
    assert first == [open(name, "rb").read() for name in package("again")]


def test_the_debian_package_is_installed_in_a_clean_root():
    if not shutil.which("dpkg-deb") or not shutil.which("dpkg"):
        raise Skipped("dpkg isn't installed")
    root = os.path.abspath("root")
    os.makedirs(f"{root}/var/lib/dpkg/info")
    os.makedirs(f"{root}/var/lib/dpkg/updates")
    put(f"{root}/var/lib/dpkg/status", b"")
    words = ["--force-not-root", "--force-depends", "--force-script-chrootless", "--force-bad-path"]
    done = subprocess.run(["dpkg", *words, "--log=/dev/null", f"--root={root}", "-i", package("made")[1]],
                          stdout=subprocess.PIPE, stderr=subprocess.STDOUT)
    assert done.returncode == 0, done.stdout.decode()
    checks_the_example(f"{root}/usr")
    assert {"cobench.1.gz", "cobtool.1.gz"} == set(os.listdir(f"{root}/usr/share/man/man1"))
    listed = subprocess.run(["dpkg", f"--root={root}", "-s", "cobench"], stdout=subprocess.PIPE).stdout
    assert b"Status: install ok installed" in listed and b"Version: 0.1.0\n" in listed


def test_a_package_wants_a_program():
    for name in ("nosuch", put("text", b"no program")):
        done = subprocess.run([os.path.join(TOOLS, "package"), "--cobench", name, "made"], stderr=subprocess.PIPE)
        assert done.returncode == 2 and len(done.stderr.splitlines()) == 1 and not os.path.exists("made"), done


def test_the_package_is_described_once():
    with open(os.path.join(TOOLS, "pyproject.toml")) as opened:
        text = opened.read()
    assert f'description = "{building.SUMMARY}"' in text and 'requires-python = ">=3.8"' in text
    assert 'cobtool = "cobench_tools.main:main"' in text and building.ENTRIES.strip().endswith("cobench_tools.main:main")
    is_fine((run_alone("--version", stdout=subprocess.PIPE).returncode, b"", ""), b"")
