"""Makes a script of the DCFs of an existing machine."""
import os
import re

from .. import output, safe_text, tool
from ..machine import Machine

SUMMARY = "make a script of the DCFs of an existing machine"

AFTER = """Each DCF is the configuration file of one node (CiA 306): a data sheet with the
values that are set, and the node's number. Printed is a script with the data
sheets without these values, the nodes, a `param` for each value that can be
written and isn't the default's, and the messages: TPDOs and RPDOs with one COB-ID
belong together. Of a file as cobench prints them each value becomes a `param`.

The manager runs in one of the nodes, the controller, where the files show it: by 1F80h
bit 0 (NMT master), else by 1F81h (slaves), CANopenManager or 1005h bit 30 (SYNC); of
several nodes with one sign the next one decides. --manager N says which node it is,
--manager 0 that it is none. Then the script has `version 3`, `manager` has the
controller's number, SYNC period (1006h) and heartbeat (1017h), and nodes with bit 3 of
1F81h are mandatory. What `cobtool export` makes again of the network becomes no `param`.
Beside N_NAME.dcf of an export N_NAME_master.dcf says what the manager does alone.

Else the script has `version 3` where less is lost so: where a PDO is off that the data
sheet has on, has a mapping that can't be written, or isn't the one that the plan
would give, where an RPDO has an event time (`receive`), or where values or PDOs are
of REAL32, REAL64 or integers of 24, 40, 48 or 56 bits.

What a script can't say is reported as FILE:LINE: warning: a value of an entry that is
read only, an RPDO whose sender is in none of the files, a mapping that fits to no
value of the sender, an identifier that a node takes twice, as an RPDO stays on by its
default, a key of the commissioning section but NodeID, NodeName and Baudrate. A value
of a type that cobench doesn't model, as UNICODE_STRING, stays in the data sheet, and
so in the DCF; nodes have data sheets of their own where these values differ.

Status: 0, or 2 where a file is no DCF, or cobench would
refuse it; nothing is printed then.

  cobtool import --sheets sheets files/*.dcf > machine.txt"""


def arguments(parser):
    parser.epilog = AFTER
    parser.add_argument("files", metavar="DCF", nargs="+")
    parser.add_argument("--all", action="store_true", help="make a param of values that are the default's too")
    parser.add_argument("--manager", metavar="N", type=int,
                        help="the manager runs in node N, the controller; 0: in none of them")
    parser.add_argument("--sheets", metavar="DIR",
                        help="write the data sheets into DIR, and take them in by <DIR/NAME.eds")


def write_sheets(folder, files):
    """Writes the data sheets; where one is there already and says something else, none."""
    if re.search(r"[\x00-\x1f]|[ \t]#", folder):
        raise tool.Fault(f"{folder!r}: no script can name this folder")
    for name, data in files.items():
        path = os.path.join(folder, name)
        if os.path.exists(path) and tool.read(path) != data:
            raise tool.Fault(f"{path}: it is there already, and says something else")
    try:
        os.makedirs(folder, exist_ok=True)
    except OSError as error:
        raise tool.Fault(f"{folder}: {error.strerror}") from None
    output.write_files(folder, files)


def run(options):
    if options.manager is not None and not 0 <= options.manager <= 127:
        raise tool.Fault(f"--manager is 0 to 127, not {options.manager}")
    machine = Machine(options.files, options.all, options.manager)
    text = machine.script(options.sheets)
    if options.sheets:
        write_sheets(options.sheets, machine.sheet_files())
    for path, line, severity, words in machine.told:
        tool.warn(f"{tool.Place(path, line)}: {severity}: {safe_text.readable(words)}")
    tool.put(text)
    return tool.DONE
