"""Gives a device its number and its bit rate by LSS."""
import argparse
from typing import Callable, Dict, List, Optional, Tuple

from ... import session, tool, within
from ...device import read_number
from .. import asked, connection, known, lss, neighbours, timing
from ..transfer import Failed

SUMMARY = "give a device its number and its bit rate (LSS)"

AFTER = """Switches one device into the state of configuration (CiA 305): that with the four
numbers of --identity, or without it the only one on the bus; where several answer,
nothing is set. It prints who the device is and which number it has. --set-node,
--set-bitrate and --store are done in this order, once you have agreed; --yes does
them without asking. At the end all devices work again.

A new bit rate counts from the next reset on. With --script a number that SCRIPT
doesn't have is refused; --force sets it all the same.

Status: 0, 1 where no device or more than one answers, or it refuses, 2 where it
can't be asked.

  cobtool bus lss --identity 0x29C 7 1 4711 --set-node 5 --store"""


def arguments(parser: argparse.ArgumentParser) -> None:
    parser.add_argument("--identity", metavar="N", nargs=4,
                        help="vendor, product, revision and serial number, decimal or 0x")
    parser.add_argument("--set-node", metavar="NODE", type=int, help="give it this number")
    parser.add_argument("--set-bitrate", metavar="KBIT", type=int, choices=sorted(lss.RATES),
                        help="give it this bit rate, in kbit/s")
    parser.add_argument("--store", action="store_true", help="have it keep both when it loses power")
    parser.add_argument("--script", metavar="SCRIPT", help="the script that plans the network")
    session.add_arguments(parser)
    within.add_argument(parser)
    asked.add_arguments(parser, "set a number that SCRIPT doesn't have")
    neighbours.add_arguments(parser)
    timing.add_arguments(parser)
    connection.add_arguments(parser)


def identity_of(words: Optional[List[str]]) -> Optional[List[int]]:
    """The four numbers of --identity, None without it."""
    numbers: List[int] = []
    for word in words or ():
        number = read_number(word)
        if number is None or not 0 <= number < 1 << 32:
            raise tool.Fault(f"--identity has four numbers of up to 32 bits, not {word}")
        numbers.append(number)
    return numbers or None


def planned_faults(options: argparse.Namespace) -> Tuple[List[str], Optional[int], Optional[int]]:
    """What the script has against a number, and its bit rate and manager."""
    if options.set_node is not None:
        known.check_node(options.set_node)
    if not options.script:
        return [], None, None
    project = session.run(options.script, options.cobench, (), known.edits_of).project
    is_fine = options.set_node is None or options.set_node in project.nodes
    faults = [] if is_fine else [f"{tool.name_of(options.script)} has no node {options.set_node}"]
    return faults, project.bitrate, project.manager[0]


def wishes_of(options: argparse.Namespace, master: lss.Master) -> Dict[str, Callable[[], None]]:
    """What is to be set, in words, and what does it."""
    wishes: Dict[str, Callable[[], None]] = {}
    if options.set_node is not None:
        wishes[f"give it the number {options.set_node}"] = lambda: master.set_node(options.set_node)
    if options.set_bitrate is not None:
        wishes[f"give it {options.set_bitrate} kbit/s"] = lambda: master.set_rate(options.set_bitrate)
    if options.store:
        wishes["have it store this"] = master.store
    return wishes


def about(master: lss.Master) -> str:
    """Who the device is, in words."""
    numbers = ", ".join(f"{name} {number:08X}h" for name, number in master.identity().items())
    node = master.node()
    return f"{numbers}; {'it has no number' if node is None else f'its number is {node}'}"


def configure(wishes: Dict[str, Callable[[], None]]) -> None:
    """Sets what is wished, and says what is set, also where something isn't."""
    done: List[str] = []
    try:
        for words, fulfil in wishes.items():
            fulfil()
            done.append(words)
    finally:
        if done:
            tool.put(f"done: {', '.join(done)}\n")


def run(options: argparse.Namespace) -> int:
    identity, (faults, bitrate, manager) = identity_of(options.identity), planned_faults(options)
    asked.check(options, faults)
    with connection.opened(options, bitrate) as bus:
        asked.tell(neighbours.listened(bus, options, manager).of_masters())
        master = lss.Master(bus, timing.seconds_of(options))
        try:
            master.select(identity) if identity else master.select_all()
            tool.put(f"{about(master)}\n")
            wishes = wishes_of(options, master)
            if wishes:
                asked.confirm(options, " and ".join(wishes))
                configure(wishes)
        except Failed as why:
            tool.say(why.text)
            return tool.FOUND
        finally:
            master.release()
    return tool.DONE
