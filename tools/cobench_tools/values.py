"""Values of the data types that cobench models: their texts in a data sheet, and their bytes (docs/rules/values.md)."""
import re

from . import reals
from .data_types import BITS, BOOLEAN, DOMAIN, NUMBERS, OCTET_STRING, REALS, SIGNED, VISIBLE_STRING
from .device import read_formula

LONGEST = 512


def range_of(kind):
    """The least and the greatest number of BOOLEAN or an integer type."""
    bits = NUMBERS[kind]
    return (-(1 << bits - 1), (1 << bits - 1) - 1) if kind in SIGNED else (0, (1 << bits) - 1)


def number_of(kind, text, node):
    """The number of BOOLEAN or an integer type that a text gives at a node, else None."""
    number = read_formula(text, node)
    if number is None:
        return None
    low, high = range_of(kind)
    if kind in SIGNED and high < number < 1 << SIGNED[kind] and re.fullmatch("0[xX][0-9A-Fa-f]+", text):
        number -= 1 << SIGNED[kind]
    return number if low <= number <= high else None


def measure_of(kind, text, node):
    """The number of BOOLEAN, an integer or a REAL type that a text gives at a node, to be compared with others, else None."""
    if kind not in REALS:
        return number_of(kind, text, node)
    data = reals.data_of(kind, text)
    return None if data is None else reals.number_of(kind, data)


def data_of(kind, text, node):
    """The bytes of the value that a text gives at a node, else None."""
    if kind in NUMBERS:
        number = number_of(kind, text, node)
        return None if number is None else number.to_bytes((NUMBERS[kind] + 7) // 8, "little", signed=kind in SIGNED)
    if kind in REALS:
        return reals.data_of(kind, text)
    if kind == VISIBLE_STRING:
        data = text.encode("utf-8", "surrogateescape")
    elif kind in (OCTET_STRING, DOMAIN) and re.fullmatch("([0-9A-Fa-f]{2})*", text):
        data = bytes.fromhex(text)
    else:
        return None
    return data if len(data) <= LONGEST else None


def default_of(entry, node):
    """The bytes that an entry has at a node from power-on on: where its default can't be read, 0 or no byte."""
    data = data_of(entry.kind, entry.default, node) if entry.default and entry.is_modelled else None
    return bytes(((entry.bits or 0) + 7) // 8) if data is None else data


def limits_of(entry, node):
    """The low and the high limit of an entry at a node by which cobench judges its values, None where there is none."""
    if not entry.is_modelled or entry.kind not in NUMBERS or entry.kind == BOOLEAN:
        return None, None
    return tuple(number_of(entry.kind, text, node) if text else None for text in (entry.low, entry.high))
