"""Asks before something is sent that changes a device."""
import argparse
import sys
from typing import Iterable, List

from .. import safe_text, tool

NOBODY = "nothing is sent: there is no terminal here to ask at, and --yes sends it without asking"


def add_arguments(parser: argparse.ArgumentParser, force: str) -> None:
    """The words that answer beforehand; `force` says what --force does."""
    parser.add_argument("--yes", action="store_true", help="send it without asking")
    parser.add_argument("--force", action="store_true", help=force)


def confirm(options: argparse.Namespace, question: str) -> None:
    """Has the user say that something is to be sent; else nothing is."""
    if options.yes:
        return
    if sys.stdin is None or not sys.stdin.isatty():
        raise tool.Fault(NOBODY)
    sys.stderr.write(f"{safe_text.readable(question)}? [y/N] ")
    sys.stderr.flush()
    if sys.stdin.readline().strip().lower() not in ("y", "yes"):
        raise tool.Fault("nothing was sent")


def check(options: argparse.Namespace, faults: List[str]) -> None:
    """Refuses what is told here, or with --force tells it alone."""
    if faults and not options.force:
        raise tool.Fault(f"{faults[0]}; --force sends it all the same")
    tell(faults)


def tell(lines: Iterable[str]) -> None:
    """Tells what the user should know before something is sent."""
    for each in lines:
        tool.warn(f"warning: {each}")
