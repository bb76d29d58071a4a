"""Makes a script with comments and file names into one that cobench takes."""
from .. import pdo_values, tool
from ..reader import Reader

SUMMARY = "print a script as cobench takes it, with its files taken in"

AFTER = """Outside of blocks, lines that begin with # are taken out, `eds NAME <FILE` becomes
the block of that data sheet, and `<FILE` the commands of that script, expanded
likewise. FILE is looked for from the folder of the script that names it; a blank
and # behind it begin a comment. All other lines stay as they are. SCRIPT can be -
for the standard input. Status: 0, or 2 where something is missing; nothing is
printed then.

  cobtool expand network.txt | cobench"""


def arguments(parser):
    parser.epilog = AFTER
    parser.add_argument("script", metavar="SCRIPT", help="the script, with comments and files; - is the standard input")


def run(options):
    reader = Reader()
    text = reader.expanded(options.script)
    for sheet in reader.sheets:
        pdo_values.warn(sheet.block_place, sheet.block)
    tool.put(text)
    return tool.DONE
