"""The types of what passes between the modules, by mypy where it is installed."""
import os
import re
import shutil
import subprocess

from helper import TOOLS, Skipped, file, put


def mypy(*words):
    """What mypy says of the package, by the configuration in pyproject.toml."""
    if not shutil.which("mypy"):
        raise Skipped("mypy isn't installed; on Debian apt-get install mypy brings it")
    done = subprocess.run(["mypy", "--no-color-output", *words], cwd=TOOLS, stdout=subprocess.PIPE, stderr=subprocess.STDOUT)
    return done.returncode, done.stdout.decode()


def test_the_types_fit():
    """And the same run finds a type that doesn't fit, so that the configuration is one that looks."""
    status, said = mypy()
    assert status == 0, said
    put("wrong.py", b"from cobench_tools import digits, replies\n"
                    b"wrong: str = digits.decimal('5')\nreply = replies.Reply(1).lines.count(b'')\n")
    status, said = mypy(os.path.abspath("wrong.py"))
    assert status == 1 and said.count(": error: ") == 2, said


def test_nothing_is_left_out():
    """No module takes all of its errors away, and each one with types in pyproject.toml is there."""
    for folder, _, names in os.walk(os.path.join(TOOLS, "cobench_tools")):
        for name in names:
            if name.endswith(".py"):
                assert not re.search(rb"type: ignore(?!\[)|mypy: ignore", file(folder, name)), name
    configuration = file(TOOLS, "pyproject.toml").decode()
    assert "ignore_errors" not in configuration and configuration.count("ignore_missing_imports") == 1
    for name in re.findall(r'"(cobench_tools\.[a-z_.]+)"', configuration):
        assert os.path.exists(os.path.join(TOOLS, *name.split(".")) + ".py"), name
