"""Prints the PDOs of a network as a DBC."""
from .. import network, tool
from ..dbc import Dbc

SUMMARY = "print the PDOs as a DBC, for tools that name and plot signals"

AFTER = f"""Runs cobench on SCRIPT, and prints each TPDO that works as a message of a DBC, with
a signal for each entry that it carries: its name in the data sheet, its type and
limits, and the nodes that take it; a REAL32 or REAL64 is a float or a double of IEEE
754 (SIG_VALTYPE_). A TPDO that no message sets, and that a device
has switched on by its defaults, stands with them. With --names receiver the signal of a
network variable (A000h to AFFFh), or of an entry whose name says nothing, as Out_i32_1,
has the name that its receivers have, with their nodes. Names are cut to 32 letters, and
the comments have them whole. The text is in Windows-1252, as DBCs are.

{network.HELP}

  cobtool dbc --names receiver network.txt > network.dbc"""


def arguments(parser):
    parser.epilog = AFTER
    parser.add_argument("--names", choices=["sender", "receiver"], default="sender",
                        help="whose names the signals of network variables have, and of entries whose names say "
                        "nothing; the sender's without it")
    network.add_arguments(parser)


def run(options):
    wiring, report = network.wired(options)
    dbc = Dbc(wiring, options.names == "receiver")
    for tpdo in dbc.left_out:
        tool.warn(f"TPDO {tpdo.number} of node {tpdo.node} is left out: {tpdo.identifier:03X}h is the identifier of "
                  "another")
    tool.put(dbc.text().encode("cp1252", "replace"))
    return tool.FOUND if dbc.left_out else report.status
