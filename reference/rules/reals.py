"""REAL32 and REAL64, of version 3: docs/rules/values.md. They are binary32 and binary64 of IEEE 754.

A text gives a value where it is a decimal number (no blanks, no hexadecimal, no inf, nan or $NODEID) whose nearest
value, ties to even, is finite. A value is printed as its exact decimal number, without an exponent."""
import re
import struct
from decimal import Decimal
from fractions import Fraction
from typing import NamedTuple

class Format(NamedTuple):
    bits: int                  # of the whole value
    fraction_bits: int         # of the significand, without the hidden one
    least: int                 # the exponent of the last place of a subnormal number
    infinity: int              # its bits
    code: str                  # in the module struct

BINARY32 = Format(32, 23, -149, 0x7F80_0000, "<f")
BINARY64 = Format(64, 52, -1074, 0x7FF0_0000_0000_0000, "<d")
DECIMAL = re.compile(rb"([+-]?)(?=\.?[0-9])([0-9]*)(?:\.([0-9]*))?(?:[eE]([+-]?[0-9]+))?")
FAR = 400                      # a power of ten beyond which every number is infinite, or below whose inverse it is zero

def value(form, text):
    """The bytes of the nearest value, lowest first; None where the text is no number, or one that isn't finite."""
    match = DECIMAL.fullmatch(text)
    if match is None:
        return None
    sign, whole, fraction, exponent = match.groups(b"")
    magnitude = rounded(form, int(whole + fraction), int(exponent or b"0") - len(fraction))
    if magnitude >= form.infinity:
        return None
    return ((sign == b"-") << form.bits - 1 | magnitude).to_bytes(form.bits // 8, "little")

def rounded(form, digits, power):
    """The bits of the value nearest to digits times 10 to the power, without its sign."""
    place = power + len(str(digits))                   # 10 to the place is above the number, and at most ten times it
    if digits == 0 or place < -FAR:
        return 0
    return form.infinity if place > FAR else nearest(form, Fraction(digits) * Fraction(10) ** power)

def nearest(form, positive):
    """The bits of the value nearest to a fraction, ties to even: the values in order have 0, 1, 2 and so on."""
    last = max(exponent_of(positive) - form.fraction_bits, form.least)
    return (last - form.least << form.fraction_bits) + round(positive / Fraction(2) ** last)     # exact, of a Fraction

def exponent_of(positive):
    """The e with 2 to the e at most the fraction, and the fraction below 2 to the e + 1."""
    e = positive.numerator.bit_length() - positive.denominator.bit_length()
    return e if positive >= Fraction(2) ** e else e - 1

def exact_text(form, data):
    """The exact decimal number of finite bytes."""
    return format(Decimal(*struct.unpack(form.code, data)), "f").encode()
