"""Says whether devices hold what a script plans for them."""
import argparse
from typing import List

from ... import acceptance, findings, tool
from ...findings import Finding
from ...report import counted
from .. import connection, planned, timing
from ..progress import Progress
from ..sdo_client import SdoClient
from ..verify import Comparison

SUMMARY = "compare what the devices hold with what a script writes into them"

AFTER = """Reads of each node who it is (1000h, 1018h) and every entry that its concise DCF
writes, and reports each value that differs, with the line of SCRIPT that gives it:

  network.txt:9: error: node 1 x_axis: 6065h:00 ..: 8192 (2000h) is planned, and the device has 4096 (1000h) [differs]

Nothing is written. Entries that can only be written are counted in the last line, and
so are those whose value is another one because RPDOs of the node write them.
A finding is accepted by its words, as --allow 'differs 1 6065'.

Status: 0 where all is as planned, 1 where something isn't, 2 where SCRIPT can't be
read or the bus can't be used.

  cobtool bus verify --interface socketcan --channel can0 network.txt"""


def arguments(parser: argparse.ArgumentParser) -> None:
    planned.add_arguments(parser)
    acceptance.add_arguments(parser)
    timing.add_arguments(parser)
    connection.add_arguments(parser)


def compared(plan: planned.Planned, nodes: List[int], bus: connection.Connection, seconds: float) -> List[Comparison]:
    """The comparisons of these nodes."""
    with Progress(sum(len(plan.values(node)) for node in nodes), "values") as progress:
        return [Comparison(plan, SdoClient(bus, node, seconds), plan.process(node), progress.step).run() for node in nodes]


def summary(comparisons: List[Comparison], found: List[Finding]) -> str:
    entries = sum(each.compared for each in comparisons)
    unreadable, changed = (sum(each) for each in zip(*((one.unreadable, one.changed) for one in comparisons)))
    more = f", {unreadable} that can only be written not among them" if unreadable else ""
    more += f"; {changed} changed by RPDOs" if changed else ""
    open_ones = [each for each in found if not each.accepted]
    accepted = f", {len(found) - len(open_ones)} accepted" if len(open_ones) < len(found) else ""
    errors = counted(len(open_ones), "error")
    return f"{errors}{accepted}; {counted(len(comparisons), 'node')}, {counted(entries, 'value')} compared{more}"


def run(options: argparse.Namespace) -> int:
    plan = planned.Planned(options.script, options.cobench)
    nodes = plan.chosen(options.nodes)
    with connection.opened(options, plan.project.bitrate) as bus:
        comparisons = compared(plan, nodes, bus, timing.seconds_of(options, plan.timeout))
    found = [finding for each in comparisons for finding in each.findings]
    acceptance.judge(found, options, acceptance.BUS)
    open_ones = [each for each in found if not each.accepted]
    tool.put("".join(f"{line}\n" for line in [*findings.lines_of(open_ones), summary(comparisons, found)]))
    return tool.FOUND if open_ones else tool.DONE
