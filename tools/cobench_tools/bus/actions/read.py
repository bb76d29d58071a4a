"""Reads an entry of a device."""
import argparse

from ... import tool
from ...data_types import type_name
from .. import connection, known, sdo_block, timing, value
from ..progress import Progress
from ..sdo_client import SdoClient
from ..transfer import Failed

SUMMARY = "read an entry of a device"

AFTER = """Reads entry INDEX SUB of node NODE by SDO, and prints its value in the words of the
data sheet that --script or --eds names; without one it prints the bytes, or the
value of --type. Nothing else is sent.

Status: 0, 1 where the device refuses or doesn't answer, 2 where it can't be asked.

  cobtool bus read --interface socketcan --channel can0 --script network.txt 1 6064 0"""


def arguments(parser: argparse.ArgumentParser) -> None:
    known.add_entry(parser)
    known.add_arguments(parser, with_type=True)
    parser.add_argument("--block", action="store_true", help="ask for a block transfer, where the device does them")
    timing.add_arguments(parser)
    connection.add_arguments(parser)


def run(options: argparse.Namespace) -> int:
    node, key = known.Known(options.node, options), known.key_of(options)
    kind = node.kind(key, options.type)
    with connection.opened(options, node.bitrate) as bus, Progress(None, "bytes") as progress:
        client = SdoClient(bus, node.number, timing.seconds_of(options), progress.step)
        try:
            data = (sdo_block.read if options.block else SdoClient.read)(client, key, value.size_of(kind))
        except Failed as why:
            tool.say(f"{node.name}: {node.entry_name(key)}: {why.text}")
            return tool.FOUND
    text = value.text_of(kind, data)
    tool.put(f"{node.name}: {node.entry_name(key)} = {text}" + (f" {type_name(kind)}" if kind else "") + "\n")
    return tool.DONE
