"""Begins a script with the data sheets of a network's devices."""
from .. import tool
from ..beginning import Beginning

SUMMARY = "begin a script with the data sheets of the devices"

AFTER = """A node for each data sheet, numbered from 1 on, in their order; one that is named
twice is two nodes. Each has a heartbeat, where its data sheet has one that can be
set; SYNC comes where a PDO goes by it; the bit rate is one that no data sheet
rules out. The PDOs that are on stand behind that as messages, commented out, each
with an entry of another node that could take it. The script has version 3 where one of
these can't be set, as one of a fixed mapping, or has a data type of that version, else
2. What is printed passes `cobtool check` where the data sheets do. Status: 0, or 2
where a file is no data sheet; nothing is printed then.

  cobtool start servo_drive.eds servo_drive.eds io.eds > network.txt"""


def arguments(parser):
    parser.epilog = AFTER
    parser.add_argument("files", metavar="EDS", nargs="+", help="the data sheet of a device (CiA 306)")


def run(options):
    tool.put(Beginning(options.files).script())
    return tool.DONE
