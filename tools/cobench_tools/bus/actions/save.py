"""Has a device store its parameters."""
import argparse

from .. import storing

SUMMARY = "have a device store its parameters (1010h)"

AFTER = """Writes `save` into 1010h of node NODE, so that the device keeps its parameters when it
loses power. You are asked first; --yes sends it without asking.

Status: 0, 1 where the device refuses or doesn't answer, 2 where nothing was sent.

  cobtool bus save --script network.txt 1"""


def arguments(parser: argparse.ArgumentParser) -> None:
    storing.arguments(parser, "which parameters")


def run(options: argparse.Namespace) -> int:
    return storing.run(options, 0x1010, b"save", "store the parameters")
