"""Configures and starts the nodes of a script as its manager does."""
import argparse
import contextlib
from typing import List

from ... import acceptance, findings, tool
from ...report import counted
from .. import asked, connection, neighbours, planned, timing
from ..download import Download, Network
from ..progress import Progress
from ..sdo_client import SdoClient

SUMMARY = "configure the nodes of a script and start them, as its manager does"

AFTER = """Does with each node what the manager of SCRIPT does at its boot: it compares who it
is (1000h, 1018h) and writes its concise DCF in order. Then each value is read back,
and the node is started: by version 1 each by itself once it is configured, by
version 2 all by one command once all mandatory ones are, and by version 3 then each
by itself. A node that isn't configured is never started: where one failed that
needn't be there, the others are started one by one. The node that is the manager
itself is left out unless it is named.

What goes wrong ends the boot of that node, and is reported with the line of SCRIPT
that gives the value, and how far the writes came:

  network.txt:9: error: node 1 x_axis: 6065h:00 .. := 8192 (2000h): abort 06090031 value too high [sdo-abort]
  network.txt:9: note: 12 of 34 writes are confirmed, the last one ..; the node isn't started

Before the first write the bus is listened to, and you are asked. It is refused
where another master is there, where a node is operational (--reset resets each node
first), and where SCRIPT has errors that aren't accepted; --force does it all the
same. Ctrl-C ends it: the node in hand isn't started, and what was written is printed.

Status: 0, 1 where a node isn't configured, 2 where nothing was written or the adapter
fails, 130 after Ctrl-C.

  cobtool bus download --interface socketcan --channel can0 --log boot.log network.txt"""

RESET, BOOTING = 0x81, 5.0


def arguments(parser: argparse.ArgumentParser) -> None:
    planned.add_arguments(parser)
    parser.add_argument("--reset", action="store_true", help="reset each node first, and wait for its boot-up message")
    parser.add_argument("--no-start", action="store_true", help="leave the nodes pre-operational")
    parser.add_argument("--no-read-back", action="store_true", help="start without reading the values back")
    asked.add_arguments(parser, "do it though another master is there, a node is operational, or SCRIPT has errors")
    acceptance.add_arguments(parser)
    neighbours.add_arguments(parser)
    timing.add_arguments(parser)
    connection.add_arguments(parser)


def faults_of(plan: planned.Planned, nodes: List[int], others: neighbours.Neighbours,
              options: argparse.Namespace) -> List[str]:
    """What speaks against a download."""
    running = [plan.name(node) for node in nodes if others.states.get(node) == neighbours.OPERATIONAL]
    faults = list(others.of_masters())
    if running and not options.reset:
        faults.append(f"{', '.join(running)}: operational; --reset resets it first")
    return faults


def question_of(plan: planned.Planned, nodes: List[int], options: argparse.Namespace) -> str:
    """What is to be done, in words."""
    count = sum(len(plan.nodes[node].writes) for node in nodes)
    first = "reset and " if options.reset else ""
    what = "" if options.no_start else " and start " + ("it" if len(nodes) == 1 else "them")
    return f"{first}write {counted(count, 'value')} to {', '.join(map(plan.name, nodes))}{what}"


def reset(bus: connection.Connection, plan: planned.Planned, nodes: List[int], others: neighbours.Neighbours) -> None:
    """Resets nodes, and waits for their boot-up messages; those that don't boot have their fault at the first read."""
    before = {node: others.boots.get(node, 0) for node in nodes}
    for node in nodes:
        bus.send(0, bytes([RESET, node]))
        bus.listen(connection.PACE)
    neighbours.wait(bus, BOOTING, lambda: all(others.boots.get(node, 0) > before[node] for node in nodes))


def report(plan: planned.Planned, network: Network, with_start: bool) -> str:
    """What became of the nodes."""
    failed = [each.finding for each in network.downloads if each.finding]
    lines = findings.lines_of(failed)
    for each in network.downloads:
        if not each.finding:
            lines.append(f"{plan.name(each.node)}: {state_text(each)}")
    if with_start and network.version > 1 and network.is_whole and network.missing():
        names = ", ".join(map(plan.name, network.missing()))
        lines.append(f"the network isn't started: mandatory and not configured: {names}")
    done, started = (sum(each) for each in zip(*((one.is_configured, one.is_started) for one in network.downloads)))
    nodes = counted(len(network.downloads), "node")
    lines.append(f"{counted(len(failed), 'error')}; {done} of {nodes} configured, {started} started")
    return "".join(f"{line}\n" for line in lines)


def state_text(download: Download) -> str:
    """How far a node has come that has no fault."""
    if download.is_configured:
        checked = "confirmed and read back" if download.reads_back else "confirmed"
        state = "started" if download.is_started else "not started"
        return f"{counted(len(download.writes), 'write')} {checked}; {state}"
    return "nothing is written" if not download.done and not download.open else download.stand()


def run(options: argparse.Namespace) -> int:
    plan = planned.Planned(options.script, options.cobench)
    nodes, errors = plan.to_boot(options.nodes), plan.own_errors(options)
    asked.check(options, [f"{plan.path} has {counted(errors, 'error')}, which cobtool check tells"] if errors else [])
    with connection.opened(options, plan.project.bitrate) as bus:
        others = neighbours.listened(bus, options, plan.manager)
        asked.check(options, faults_of(plan, nodes, others, options))
        asked.tell(f"node {node} is on the bus, and isn't planned" for node in sorted(others.heard - set(plan.nodes)))
        asked.confirm(options, question_of(plan, nodes, options))
        if options.reset:
            reset(bus, plan, nodes, others)
        return done(plan, nodes, bus, others, options)


def done(plan: planned.Planned, nodes: List[int], bus: connection.Connection, others: neighbours.Neighbours,
         options: argparse.Namespace) -> int:
    """Boots the nodes, and says what became of them, also where the user ends it or the adapter fails."""
    clients = [SdoClient(bus, node, timing.seconds_of(options, plan.timeout)) for node in nodes]
    downloads = [Download(plan, client, others, not options.no_read_back) for client in clients]
    network = Network(plan, downloads, bus, others)
    try:
        with Progress(sum(len(each.writes) for each in downloads), "writes") as progress:
            network.run(progress.step, not options.no_start)
    except (KeyboardInterrupt, tool.Fault):
        for each in downloads:
            with contextlib.suppress(tool.Fault):
                each.client.give_up()
        tool.put(report(plan, network, False))
        raise
    tool.put(report(plan, network, not options.no_start))
    return tool.FOUND if any(each.finding for each in downloads) else tool.DONE
