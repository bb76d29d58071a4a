"""How long a device may take to answer."""
import argparse

from .. import tool

SECONDS = 0.5
MOST = 600_000


def add_arguments(parser: argparse.ArgumentParser, seconds: float = SECONDS) -> None:
    parser.add_argument("--timeout", metavar="MS", type=int,
                        help=f"the milliseconds within which each answer has to come; {seconds * 1000:g} without it")


def seconds_of(options: argparse.Namespace, seconds: float = SECONDS) -> float:
    """The seconds within which each answer has to come."""
    if options.timeout is None:
        return seconds
    if not 1 <= options.timeout <= MOST:
        raise tool.Fault(f"--timeout is 1 to {MOST:,} milliseconds, not {options.timeout:,}")
    return options.timeout / 1000
