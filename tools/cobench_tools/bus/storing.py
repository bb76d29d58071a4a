"""Has a device store its parameters (1010h) or restore its defaults (1011h): by signatures, so that no slip does it."""
import argparse

from .. import tool
from . import asked, connection, known, neighbours, timing
from .sdo_client import SdoClient
from .transfer import Failed

SECONDS = 10.0      # a device may write its flash memory before it answers


def arguments(parser: argparse.ArgumentParser, what: str) -> None:
    parser.add_argument("node", metavar="NODE", type=int, help="the number of the node, decimal")
    parser.add_argument("--sub", metavar="SUB", default="1",
                        help=f"{what}: 1 all, 2 those of communication, 3 those of the application")
    known.add_arguments(parser)
    asked.add_arguments(parser, "do it though the script doesn't have the node")
    neighbours.add_arguments(parser)
    timing.add_arguments(parser, SECONDS)
    connection.add_arguments(parser)


def run(options: argparse.Namespace, index: int, signature: bytes, what: str, behind: str = "") -> int:
    """Writes a signature into a sub-index of an object."""
    node, sub = known.Known(options.node, options), known.hexadecimal("--sub", options.sub, 0xFF)
    if not 1 <= sub <= 0x7F:
        raise tool.Fault(f"--sub is 1 to 7F, not {options.sub}")
    node.check_planned(options)
    with connection.opened(options, node.bitrate) as bus:
        asked.tell(neighbours.listened(bus, options, node.manager).of_masters())
        asked.confirm(options, f"{what} of {node.name} ({index:04X}h:{sub:02X})")
        try:
            SdoClient(bus, node.number, timing.seconds_of(options, SECONDS)).write((index, sub), signature)
        except Failed as why:
            tool.say(f"{node.name}: {what}: {index:04X}h:{sub:02X}: {why.text}")
            return tool.FOUND
    tool.put(f"{node.name}: {what}: done{behind}\n")
    return tool.DONE
