"""Writes a DCF of what a device holds."""
import argparse
from typing import Optional

from ... import tool
from .. import connection, known, timing
from ..dcf_file import DcfFile
from ..progress import Progress
from ..sdo_client import SdoClient
from ..transfer import Failed
from ..upload import Upload

SUMMARY = "print the DCF of what a device holds"

AFTER = """Reads of node NODE each entry that its data sheet (--script or --eds) lets be read and
written, and the PDOs, and prints the data sheet with these values: a DCF, which
`cobtool import` makes a script of. Nothing is written to the device.

Left out are values of the process, which an RPDO of the device writes, errors so
far (1003h), and the objects that store, restore or load programs. What the device
doesn't give is reported as FILE:LINE: warning.

Status: 0, 1 where the device doesn't answer and nothing is printed, 2 where it
can't be asked.

  cobtool bus upload --eds servo_drive.eds 1 > 1_x_axis.dcf"""


def arguments(parser: argparse.ArgumentParser) -> None:
    parser.add_argument("node", metavar="NODE", type=int, help="the number of the node, decimal")
    known.add_arguments(parser)
    timing.add_arguments(parser)
    connection.add_arguments(parser)


def text_of(node: known.Known, upload: Upload, bitrate: Optional[int]) -> bytes:
    """The DCF."""
    title = f"what node {node.number} holds, read by cobtool bus upload"
    lines = DcfFile(node.lines, node.sheet(), upload.texts()).made(title, node.number, node.label, bitrate)
    return b"".join(line + b"\n" for line in lines)


def run(options: argparse.Namespace) -> int:
    node = known.Known(options.node, options)
    node.sheet()
    with connection.opened(options, node.bitrate) as bus:
        upload = Upload(node, SdoClient(bus, node.number, timing.seconds_of(options)))
        try:
            with Progress(upload.count(), "entries") as progress:
                upload.run(progress.step)
        except Failed as why:
            what = f": {node.entry_name(why.key)}" if why.key else ""
            tool.say(f"{node.name}{what}: {why.text}; nothing is printed")
            return tool.FOUND
    bitrate = node.bitrate or (options.bitrate or 0) // 1000
    for line, text in upload.told:
        tool.warn(f"{node.sheet_place(line)}: warning: {text}")
    if upload.process:
        names = ", ".join(node.entry_name(key) for key in sorted(upload.process))
        tool.warn(f"note: left out, as RPDOs of the device write them: {names}")
    tool.put(text_of(node, upload, bitrate))
    return tool.DONE
