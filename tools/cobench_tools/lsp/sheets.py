"""A data sheet or DCF that is open by itself: it is judged as that of one node in a script of two lines."""
from .. import ini, script
from ..device import read_number
from ..node_file import COMMISSIONING

NAME = b"sheet"
FIRST = 1       # the number of the node where the file names none


def commands(reading, path):
    """The commands by which cobench judges a data sheet: it is taken in, and one node has it."""
    taken = script.Command(path, 0, b"eds %s <%s" % (NAME, path.encode("utf-8", "surrogateescape")))
    taken.block = script.eds_lines(NAME, path, reading.take_text)
    taken.file = path
    node = script.Command(path, 1, b"node %d %s %s" % (number_of(taken.block), NAME, NAME))
    return [taken, node]


def number_of(lines):
    """The number of the node by the file."""
    sections = ini.sections_of(lines)
    given = next((sections[name].get("nodeid", "") for name in COMMISSIONING if name in sections), "")
    number = read_number(given)
    return number if number is not None and 1 <= number < 127 else FIRST
