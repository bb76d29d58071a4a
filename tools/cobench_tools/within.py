"""Which files a script may take in: files alone, and only below a folder where `--within` or the variable CI asks for that.

A command reads the scripts of one user, so that there is one rule for all of its run.
"""
import argparse
import os
from typing import List, Optional

from . import opening, tool

# The commands that read a script.
COMMANDS = ("check", "export", "matrix", "diff", "dbc", "load", "expand", "refusals", "explain", "stats", "timeline", "candump",
            "conform", "live", "lsp")
NOT_SET = ("", "0", "false")
BUILD_SERVER = "where CI is set a script takes in files of its own folder alone; --within DIR says another"


class Rule:
    """The folders below which the files have to be: None for anywhere, and none for the folder of the script itself."""

    def __init__(self) -> None:
        self.folders: Optional[List[str]] = None

    def choose(self, given: Optional[str]) -> None:
        """Takes the folder that `--within` gave; without one the variable CI asks for the script's own."""
        if given is not None and not os.path.isdir(given):
            raise tool.Fault(f"--within {given}: there is no such folder")
        is_ci = os.environ.get("CI", "").lower() not in NOT_SET
        self.folders = [given] if given is not None else [] if is_ci else None

    def add(self, folder: str) -> None:
        """Files below this folder are taken in too: a version of the project stands there."""
        if self.folders:
            self.folders.append(folder)

    def why_not(self, path: str, script: str) -> Optional[str]:
        """Why a script, or one that it takes in, may not take a file in, else None."""
        kind = opening.other_kind(path)
        if kind and kind != "a folder":
            return f"it is {kind}, and a script takes in files alone"
        if self.folders is None or any(is_below(path, folder) for folder in self.folders or [folder_of(script)]):
            return None
        return f"it is outside of {' and '.join(self.folders)}" if self.folders else f"it is outside of the script's folder; {BUILD_SERVER}"


rule = Rule()


def folder_of(script: str) -> str:
    """The folder of a script; that of the standard input is the one in which the command runs."""
    return "." if script == "-" else os.path.dirname(script) or "."


def is_below(path: str, folder: str) -> bool:
    """Whether a file is below a folder, whatever links lead to it."""
    place, top = os.path.realpath(path), os.path.realpath(folder)
    return os.path.commonpath([place, top]) == top


def add_argument(parser: argparse.ArgumentParser) -> None:
    """The word that chooses the folder."""
    parser.add_argument("--within", metavar="DIR", help="the script takes in files below DIR alone; where the variable CI is "
                                                        "set, those below its own folder if this doesn't say another")
