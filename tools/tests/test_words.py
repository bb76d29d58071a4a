"""The words of every command, and the lists of them."""
import os
import re

from helper import TOOLS, file, is_fine, is_refused, run

from cobench_tools.main import COMMANDS


def test_each_tool_has_help_and_a_line_in_the_readme():
    readme = file(TOOLS, "README.md").decode()
    for tool in COMMANDS:
        status, output, faults = run(tool, "--help")
        assert status == 0 and output.startswith(b"usage: cobtool " + tool.encode()) and not faults
        assert f"  cobtool {tool} " in output.decode() or f"| cobtool {tool} " in output.decode(), tool
        assert f"`cobtool {tool} " in readme, tool


def test_the_help_lists_all_commands():
    status, output, faults = run("--help")
    listed = re.findall(rb"(?m)^  ([a-z]+)  ", output)
    assert status == 0 and not faults and [each.decode() for each in listed if each != b"options"] == list(COMMANDS)
    modules = {name[:-3].rstrip("_") for name in os.listdir(os.path.join(TOOLS, "cobench_tools", "commands"))
               if name.endswith(".py") and name != "__init__.py"}
    assert modules == set(COMMANDS), modules ^ set(COMMANDS)


def test_the_version_is_told():
    is_fine(run("--version"), b"cobtool 0.1.0\n")
    for tool in COMMANDS:
        is_fine(run(tool, "--version"), b"cobtool 0.1.0\n")


def test_wrong_words_have_status_2():
    is_refused(run(), "a command is missing")
    is_refused(run("--nosuch"), "--nosuch", "cobtool --help")
    is_refused(run("expnad"), "no command expnad; is it expand")
    for tool in COMMANDS:
        is_refused(run(tool, "--nosuch"), f"cobtool {tool} --help")
