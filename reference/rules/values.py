"""Numbers, formulas, and the values of data types: docs/rules/values.md.

A type is its code in CiA 301, and None where it isn't modelled. Version 3 has more of them."""
import re
from . import reals

BOOLEAN, VISIBLE_STRING, OCTET_STRING, DOMAIN = 0x01, 0x09, 0x0A, 0x0F
UNSIGNED8, UNSIGNED16, UNSIGNED32 = 0x05, 0x06, 0x07
SIGNED_BITS = {0x02: 8, 0x03: 16, 0x10: 24, 0x04: 32, 0x12: 40, 0x13: 48, 0x14: 56, 0x15: 64}
UNSIGNED_BITS = {0x05: 8, 0x06: 16, 0x16: 24, 0x07: 32, 0x18: 40, 0x19: 48, 0x1A: 56, 0x1B: 64}
REALS = {0x08: reals.BINARY32, 0x11: reals.BINARY64}
WIDTHS = {BOOLEAN: 1, **SIGNED_BITS, **UNSIGNED_BITS, **{kind: form.bits for kind, form in REALS.items()}}
OF_VERSION_3 = {0x10, 0x12, 0x13, 0x14, 0x16, 0x18, 0x19, 0x1A, *REALS}
MODELLED = {VISIBLE_STRING, OCTET_STRING, DOMAIN, *WIDTHS}
LONGEST_VALUE = 512
NUMBER = re.compile(rb"(-?)(?:0[xX]([0-9A-Fa-f]+)|(0[0-7]+)|([0-9]+))")
PLAIN_HEXADECIMAL = re.compile(rb"0[xX][0-9A-Fa-f]+")
PAIRS = re.compile(rb"(?:[0-9A-Fa-f]{2})*")

def type_of_code(code, has_all):
    """The type of that code in scripts that have the types of version 3 or not, or None."""
    return code if code in MODELLED and (has_all or code not in OF_VERSION_3) else None

def is_integer(kind):
    return kind in SIGNED_BITS or kind in UNSIGNED_BITS

def width_bits(kind):
    """The bits of a value in a PDO; None of a type that has none."""
    return WIDTHS.get(kind)

def fixed_length(kind):
    """The bytes of each value of the type, or None."""
    bits = width_bits(kind)
    return None if bits is None else (bits + 7) // 8

def number(text):
    """The number that a text spells, or None."""
    match = NUMBER.fullmatch(text)
    if match is None:
        return None
    minus, hexadecimal, octal, decimal = match.groups()
    unsigned = int(hexadecimal, 16) if hexadecimal else int(octal, 8) if octal else int(decimal)
    spelled = -unsigned if minus else unsigned
    return spelled if -2**63 <= spelled < 2**64 else None

def is_node_id(text):
    return text.lower() == b"$nodeid"

def formula(text, node):
    """The number that a formula gives at a node, or None."""
    if is_node_id(text):
        return node
    return number(text) if b"+" not in text else node_sum(text, node)

def node_sum(text, node):
    """$NODEID+number or number+$NODEID: the number has no sign, and the sum is in the range of numbers."""
    left, right = (term.strip(b" \t") for term in text.split(b"+", 1))
    if not is_node_id(left) and not is_node_id(right):
        return None
    term = right if is_node_id(left) else left
    spelled = None if term.startswith(b"-") else number(term)
    return None if spelled is None or spelled + node >= 2**64 else spelled + node

def value(kind, text, node):
    """The bytes of the value of a type that a text spells at a node, or None."""
    if kind is None:
        return None
    if kind in REALS:
        return reals.value(REALS[kind], text)
    if kind == VISIBLE_STRING:
        return text if len(text) <= LONGEST_VALUE else None
    if kind in (OCTET_STRING, DOMAIN):
        return bytes.fromhex(text.decode()) if len(text) <= 2 * LONGEST_VALUE and PAIRS.fullmatch(text) else None
    return number_value(kind, text, formula(text, node))

def number_value(kind, text, spelled):
    """Of a BOOLEAN or integer: the bytes of the number that the text spells, where it is in the type's range."""
    bits = width_bits(kind)
    is_signed = kind in SIGNED_BITS and not PLAIN_HEXADECIMAL.fullmatch(text)          # that is in two's complement
    low, high = (-2**(bits - 1), 2**(bits - 1)) if is_signed else (0, 2**bits)
    if spelled is None or not low <= spelled < high:
        return None
    return (spelled % 2**bits).to_bytes(fixed_length(kind), "little")

def number_in(kind, data):
    """The number that the bytes of a BOOLEAN or integer are."""
    return int.from_bytes(data, "little", signed=kind in SIGNED_BITS)

def text_of_value(kind, data):
    """As a DCF prints it."""
    if kind == VISIBLE_STRING:
        return data
    if kind in (OCTET_STRING, DOMAIN):
        return data.hex().upper().encode()
    if kind in REALS:
        return reals.exact_text(REALS[kind], data)
    if kind in UNSIGNED_BITS:
        return b"0x%0*X" % (UNSIGNED_BITS[kind] // 4, number_in(kind, data))
    return b"%d" % number_in(kind, data)
