"""Values that a data sheet gives to PDO objects. cobench doesn't use them: messages make them (docs/rules/commands.md)."""
import re
import weakref
from typing import List

from . import tool
from .data_types import WHOLE
from .device import Device

FIRST, LAST = 0x1400, 0x1BFF
KNOWN: "weakref.WeakKeyDictionary[Device, List[int]]" = weakref.WeakKeyDictionary()     # the lines of each data sheet that was gone through
MAY_GIVE_VALUES = re.compile(rb"(?i)parametervalue|value *\]")


def is_of_pdos(index):
    """Whether an object is one of PDOs."""
    return FIRST <= index <= LAST


def lines_with_values(lines):
    """The lines of a data sheet that give values to entries of PDO objects, by number from 1."""
    return lines_of(Device(lines, WHOLE)) if any(map(MAY_GIVE_VALUES.search, lines)) else []


def lines_of(device):
    """The same of a data sheet that was read."""
    if device not in KNOWN:
        KNOWN[device] = sorted(entry.line for key, entry in device.entries.items() if entry.value and is_of_pdos(key[0]))
    return KNOWN[device]


def not_used(count):
    """That so many values aren't used, in words."""
    values = "1 value of a PDO object is" if count == 1 else f"{count} values of PDO objects are"
    return f"{values} not used, as messages make them; `cobtool import` makes messages of them"


def warn(place, lines):
    """Warns of values that aren't used.

    place  gives FILE:LINE of a line of the data sheet, by its number
    """
    found = lines_with_values(lines)
    if found:
        tool.warn(f"{place(found[0])}: warning: {not_used(len(found))}")
