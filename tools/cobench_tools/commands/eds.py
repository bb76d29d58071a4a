"""Prints the `eds` command of a file."""
from .. import acceptance, findings, network, pdo_values, script, sheet_faults, tool
from ..data_types import WHOLE
from ..device import Device

SUMMARY = "print `eds NAME LINES` and the lines of an EDS, counted; say what is wrong with it"

AFTER = """The lines are counted as cobench counts them: the last one may have no end, and
CRs at a line's end are taken away, as is a byte 1Ah (DOS) at the end of all.
FILE can be - for the standard input.

What checkers of EDS files report is a warning on the standard error: an AccessType
or PDOMapping that there isn't, no DataType, limits and defaults that contradict one
another, SubNumber and lists of objects that don't fit, a PDO without its mapping,
an object outside its area, a name that is given twice. It is accepted by --allow
'sheet NAME' with what kind it is and its entry, as 'sheet servo access 6040 00';
the first words will do.
Status: 0, 1 where --werror makes errors of warnings, 2 where cobench would refuse
the block.

  cobtool eds servo servo_drive.eds > network.txt"""


def arguments(parser):
    parser.epilog = AFTER
    parser.add_argument("name", metavar="NAME", help="the name of the data sheet in the script")
    parser.add_argument("file", metavar="FILE", help="the data sheet; - is the standard input")
    acceptance.add_arguments(parser)


def wrong_with(options, lines):
    """What is wrong with the data sheet, and isn't accepted."""
    def place(line):
        return tool.Place(options.file, line)

    device = Device(lines, WHOLE)
    found = findings.values_of_pdos(options.name, pdo_values.lines_of(device), place)
    found += sheet_faults.findings_of(options.name, sheet_faults.faults_of(device, lines), place)
    acceptance.judge(found, options, acceptance.SHEET)
    return [finding for finding in found if not finding.accepted]


def run(options):
    name = options.name.encode("utf-8", "surrogateescape")
    lines = script.eds_lines(name, options.file)
    found = wrong_with(options, lines)
    network.tell(found)
    tool.put(script.block_of(name, lines))
    return tool.FOUND if any(finding.severity == findings.ERROR for finding in found) else tool.DONE
