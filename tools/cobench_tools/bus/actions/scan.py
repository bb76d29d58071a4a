"""Says which devices are on the bus, and whether they are those of a script."""
import argparse
from typing import List, Tuple

from ... import session, tool, within
from ...device import Device
from .. import connection, identity, known, neighbours, timing
from ..progress import Progress
from ..scan import Found, Scan

SUMMARY = "say which devices are on the bus, and which nodes of a script they are"

AFTER = """Listens to the bus, then asks each number from 1 to 127 for its device type (1000h)
and its identity (1018h) by SDO. Nothing is written, and nothing else is sent. With
SCRIPT it says of each whether it is the planned node, and of others which data
sheet of SCRIPT they fit to.

The state comes from the last heartbeat; if none comes while it listens, it is
unknown. Two answers from one number are reported: two devices have it.

Status: 0, 1 where with SCRIPT something isn't as planned or two devices have one
number, 2 where the bus can't be used.

  cobtool bus scan --interface socketcan --channel can0 network.txt"""

HEADS = "Node", "State", "Device type", "Vendor", "Product", "Revision", "Serial", "Is"


def arguments(parser: argparse.ArgumentParser) -> None:
    parser.add_argument("script", metavar="SCRIPT", nargs="?", help="the script to compare with")
    neighbours.add_arguments(parser)
    timing.add_arguments(parser)
    connection.add_arguments(parser)
    session.add_arguments(parser)
    within.add_argument(parser)


class Plan:
    """The planned nodes, and what their data sheets say of who they are; without a script there are none."""

    def __init__(self, options: argparse.Namespace) -> None:
        self.nodes, self.sheets, self.bitrate, self.manager = {}, {}, None, None
        if options.script:
            project = session.run(options.script, options.cobench, (), known.edits_of).project
            self.nodes, self.bitrate, self.manager = project.nodes, project.bitrate, project.manager[0]
            self.sheets = {name: Device(lines, project.version) for name, lines in project.texts.items()}

    def is_there(self) -> bool:
        return self.bitrate is not None

    def words(self, found: Found) -> Tuple[str, bool]:
        """Who a device is, and whether that is as planned."""
        number = found.number
        twice = f"{found.answers} devices have this number; " if found.answers > 1 else ""
        if found.numbers is None:
            return twice + found.why, not (self.is_there() or twice)
        if number == self.manager and number not in self.nodes:
            return f"{twice}the manager", not twice
        if number not in self.nodes:
            return twice + self.unplanned(found), not (self.is_there() or twice)
        name, eds = self.nodes[number]
        wrong = identity.differences(identity.expected(self.sheets[eds], number), found.numbers)
        also = self.fits(found) if wrong else ""
        manager = ", the manager" if number == self.manager else ""
        return twice + f"{name}{manager}" + "".join(f"; {each}" for each in wrong) + also, not wrong and not twice

    def unplanned(self, found: Found) -> str:
        return f"not planned{self.fits(found)}" if self.is_there() else "there"

    def fits(self, found: Found) -> str:
        """Which data sheets a device fits to, and whose they are."""
        numbers = found.numbers or {}
        names = [name for name, device in sorted(self.sheets.items())
                 if identity.is_of_kind(identity.expected(device, found.number), numbers)]
        return "".join(f"; it fits data sheet {name}{self.users(name)}" for name in names)

    def users(self, eds: str) -> str:
        nodes = [f"node {number} {name}" for number, (name, sheet) in sorted(self.nodes.items()) if sheet == eds]
        return f" of {', '.join(nodes)}" if nodes else ""


def table(rows: List[List[str]]) -> str:
    """Rows of texts under the heads, in columns."""
    rows = [list(HEADS), *rows]
    widths = [max(len(row[place]) for row in rows) for place in range(len(HEADS) - 1)]
    padded = [[f"{text:{width}}" for text, width in zip(row, widths)] + [row[-1]] for row in rows]
    return "".join("  ".join(row) + "\n" for row in padded)


def row_of(found: Found, state: str, words: str) -> List[str]:
    texts = map(identity.text_of, found.numbers.values()) if found.numbers else ["-"] * len(identity.NUMBERS)
    numbers = [text.rstrip("h") for text in texts]
    return [str(found.number), state, *numbers, words]


def report(plan: Plan, scan: Scan) -> Tuple[str, bool]:
    """The table of what was found, and whether all is as planned."""
    rows, is_fine = [], True
    for number, found in sorted(scan.found.items()):
        words, is_planned = plan.words(found)
        rows.append(row_of(found, scan.others.state_text(number), words))
        is_fine = is_fine and is_planned
    missing = [f"node {number} {name}" for number, (name, _) in sorted(plan.nodes.items()) if number not in scan.found]
    text = table(rows) if rows else "nothing answers\n"
    text += "".join(f"{each}: not on the bus\n" for each in missing)
    return text + "".join(f"{each}\n" for each in scan.others.of_masters()), is_fine and not missing


def run(options: argparse.Namespace) -> int:
    plan, seconds = Plan(options), timing.seconds_of(options)
    with connection.opened(options, plan.bitrate) as bus:
        others = neighbours.listened(bus, options, plan.manager)
        with Progress(127, "numbers") as progress:
            scan = Scan(bus, others, seconds, progress.step)
    text, is_fine = report(plan, scan)
    tool.put(text)
    return tool.DONE if is_fine else tool.FOUND
