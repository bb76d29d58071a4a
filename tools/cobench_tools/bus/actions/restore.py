"""Has a device restore its defaults."""
import argparse

from .. import storing

SUMMARY = "have a device restore its defaults (1011h)"

AFTER = """Writes `load` into 1011h of node NODE: from its next reset on the device has its
vendor's defaults. You are asked first; --yes sends it without asking.

Status: 0, 1 where the device refuses or doesn't answer, 2 where nothing was sent.

  cobtool bus restore --script network.txt 1"""


def arguments(parser: argparse.ArgumentParser) -> None:
    storing.arguments(parser, "which defaults")


def run(options: argparse.Namespace) -> int:
    return storing.run(options, 0x1011, b"load", "restore the defaults", "; they count from the next reset on")
