"""Writes an entry of a device."""
import argparse
from typing import List, Tuple

from ... import tool, values
from ...data_types import SIGNED
from .. import asked, connection, known, neighbours, sdo_block, timing, value
from ..progress import Progress
from ..sdo_client import SdoClient
from ..transfer import Failed, Key

SUMMARY = "write an entry of a device"

AFTER = """Writes VALUE into entry INDEX SUB of node NODE by SDO: a number, a text, or pairs of
hexadecimal digits, as `param` of a script has it. Type, access and limits are those
of the data sheet that --script or --eds names; without one --type says the type.
What the data sheet doesn't allow is refused, and --force sends it all the same.

Before it is sent, the bus is listened to, each sign of another master is reported, and
you are asked; --yes sends it without asking.

Status: 0, 1 where the device refuses or doesn't answer, 2 where nothing was sent.

  cobtool bus write --script network.txt 1 6065 0 0x2000"""


UNTYPED = "no data sheet says its type"


def arguments(parser: argparse.ArgumentParser) -> None:
    known.add_entry(parser)
    parser.add_argument("value", metavar="VALUE", help="the value, as `param` has it")
    known.add_arguments(parser, with_type=True)
    parser.add_argument("--block", action="store_true", help="ask for a block transfer, where the device does them")
    asked.add_arguments(parser, "write what the data sheet or the script doesn't allow, too")
    neighbours.add_arguments(parser)
    timing.add_arguments(parser)
    connection.add_arguments(parser)


def faults_of(node: known.Known, key: Key, kind: int, data: bytes) -> List[str]:
    """What the data sheet has against a value."""
    entry, name = node.entry(key), f"{node.name}: {node.entry_name(key)}"
    if node.device is None:
        return []
    if entry is None:
        return [f"{name}: the data sheet {node.eds} has no such entry"]
    faults = [] if entry.is_writable() else [f"{name}: its access is {entry.access}"]
    low, high = values.limits_of(entry, node.number)
    number = int.from_bytes(data, "little", signed=kind in SIGNED)
    if low is not None and number < low:
        faults.append(f"{name}: {number} is below its low limit, {low}")
    if high is not None and number > high:
        faults.append(f"{name}: {number} is above its high limit, {high}")
    return faults


def data_to_write(node: known.Known, key: Key, options: argparse.Namespace) -> Tuple[int, bytes]:
    """The type and the bytes of the value, once nothing is against it or all is forced."""
    kind = node.kind(key, options.type)
    if kind not in value.KINDS.values():
        why = f"the data sheet {node.eds} has no type of it that is known here" if node.device else UNTYPED
        raise tool.Fault(f"{node.name}: {node.entry_name(key)}: {why}; --type TYPE does")
    data = value.data_of(kind, options.value, node.number)
    if data is None:
        raise tool.Fault(f"{node.name}: {node.entry_name(key)}: {value.why_none(kind, options.value)}")
    asked.check(options, faults_of(node, key, kind, data))
    return kind, data


def run(options: argparse.Namespace) -> int:
    node, key = known.Known(options.node, options), known.key_of(options)
    node.check_planned(options)
    kind, data = data_to_write(node, key, options)
    what = f"{node.name}: {node.entry_name(key)} := {value.text_of(kind, data)}"
    with connection.opened(options, node.bitrate) as bus:
        others = neighbours.listened(bus, options, node.manager)
        asked.tell(others.of_masters())
        asked.confirm(options, f"write {what}")
        try:
            with Progress(len(data), "bytes") as progress:
                client = SdoClient(bus, node.number, timing.seconds_of(options), progress.step)
                (sdo_block.write if options.block else SdoClient.write)(client, key, data)
        except Failed as why:
            tool.say(f"{what}: {why.text}")
            return tool.FOUND
    tool.put(f"{what}\n")
    return tool.DONE
