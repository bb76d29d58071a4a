"""Sends a command of the network management."""
import argparse
from typing import Dict, List

from ... import findings, session, tool, within
from .. import asked, connection, known, neighbours, planned, timing
from .verify import compared

SUMMARY = "start, stop or reset a node or all"

AFTER = """Sends the NMT command SERVICE to node NODE, or to all. A start needs --script SCRIPT:
what SCRIPT writes into the node is read and compared first, and a node that isn't
configured as planned isn't started. After a reset the boot-up message is waited for.

You are asked first; --yes sends it without asking. --force starts a node that isn't
configured, or of which that isn't known, and commands one that SCRIPT doesn't have.

Status: 0, 1 where a node isn't configured or doesn't boot, 2 where nothing was sent.

  cobtool bus nmt --script network.txt start 1"""

SERVICES = {"start": 1, "stop": 2, "pre-operational": 128, "reset-node": 129, "reset-communication": 130}
RESETS = "reset-node", "reset-communication"
BOOTING = 5.0


def arguments(parser: argparse.ArgumentParser) -> None:
    parser.add_argument("service", metavar="SERVICE", choices=list(SERVICES), help=", ".join(SERVICES))
    parser.add_argument("node", metavar="NODE", help="the number of the node, or all")
    parser.add_argument("--script", metavar="SCRIPT", help="the script that plans the network")
    session.add_arguments(parser)
    within.add_argument(parser)
    asked.add_arguments(parser, "start what isn't configured, command what isn't planned")
    neighbours.add_arguments(parser)
    timing.add_arguments(parser)
    connection.add_arguments(parser)


class Target:
    """Whom a command is for.

    number  0 for all
    nodes   the numbers that are known of these
    """

    def __init__(self, options: argparse.Namespace) -> None:
        self.plan = planned.Planned(options.script, options.cobench) if options.script else None
        self.number = 0 if options.node == "all" else number_of(options.node)
        self.nodes = [self.number] if self.number else sorted(self.plan.nodes) if self.plan else []
        self.name = self.name_of(self.number) if self.number else "all nodes"

    def name_of(self, node: int) -> str:
        return self.plan.name(node) if self.plan else f"node {node}"

    def faults(self, service: str, path: str) -> List[str]:
        """What speaks against a command, before the bus is asked."""
        if self.number and self.plan and self.number not in self.plan.nodes:
            return [f"{tool.name_of(path)} has no node {self.number}"]
        if service == "start" and not self.plan:
            verb = "is" if self.number else "are"
            return [f"whether {self.name} {verb} configured isn't known without --script SCRIPT"]
        return []


def number_of(word: str) -> int:
    try:
        number = int(word)
    except ValueError:
        raise tool.Fault(f"NODE is a number from 1 to 127, or all, not {word}") from None
    known.check_node(number)
    return number


def unconfigured(target: Target, bus: connection.Connection, others: neighbours.Neighbours,
                 options: argparse.Namespace) -> List[str]:
    """What speaks against a start: what the devices hold otherwise, and who would be started besides."""
    if not target.plan:
        return []
    nodes = [node for node in target.nodes if node in target.plan.nodes]
    comparisons = compared(target.plan, nodes, bus, timing.seconds_of(options, target.plan.timeout))
    found = [finding for each in comparisons for finding in each.findings]
    strangers = sorted(others.heard - set(target.plan.nodes)) if not target.number else []
    besides = [f"node {node} is on the bus, and isn't planned: it would be started too" for node in strangers]
    return findings.lines_of(found) + besides


def run(options: argparse.Namespace) -> int:
    target = Target(options)
    asked.check(options, target.faults(options.service, options.script))
    bitrate, manager = (target.plan.project.bitrate, target.plan.manager) if target.plan else (None, None)
    with connection.opened(options, bitrate) as bus:
        others = neighbours.listened(bus, options, manager)
        asked.tell(others.of_masters())
        lines = unconfigured(target, bus, others, options) if options.service == "start" else []
        asked.tell(lines)
        if lines and not options.force:
            tool.say(f"{target.name}: not started: what {options.script} plans isn't there; "
                     "--force starts it all the same")
            return tool.FOUND
        asked.confirm(options, f"send {options.service} to {target.name}")
        before = dict(others.boots)
        bus.send(0, bytes([SERVICES[options.service], target.number]))
        tool.put(f"sent: {options.service} to {target.name}\n")
        return booted(target, bus, others, before) if options.service in RESETS else tool.DONE


def booted(target: Target, bus: connection.Connection, others: neighbours.Neighbours, before: Dict[int, int]) -> int:
    """Says of each node that was reset when it booted."""
    waiting, is_fine = list(target.nodes), True

    def has_booted(node: int) -> bool:
        return others.boots.get(node, 0) > before.get(node, 0)

    neighbours.wait(bus, BOOTING, lambda: bool(waiting) and all(map(has_booted, waiting)))
    for node in waiting or sorted(filter(has_booted, others.boots)):
        is_fine = is_fine and has_booted(node)
        what = "it has booted" if has_booted(node) else f"no boot-up message in {BOOTING:g} s"
        tool.put(f"{target.name_of(node)}: {what}\n")
    return tool.DONE if is_fine else tool.FOUND
