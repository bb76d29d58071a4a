"""Values of REAL32 and REAL64, the formats binary32 and binary64 of IEEE 754: their bytes out of texts, and texts out of bytes.

A text gives the value that is nearest to its decimal number, of two the even one, where that is finite. What is shown of a value is
the shortest decimal number that reads back as it.
"""
import functools
import math
import re
import struct
from decimal import ROUND_DOWN, ROUND_UP, Context, Decimal
from typing import Optional

from .data_types import REAL32, REAL64

CODES = {REAL32: "<f", REAL64: "<d"}
DECIMAL = re.compile(r"[+-]?([0-9]+\.?[0-9]*|\.[0-9]+)([eE][+-]?[0-9]+)?")
USUAL_DIGITS, MOST_DIGITS = 6, 9        # of so many significant digits the latter tell each REAL32 from all others


def data_of(kind: int, text: str) -> Optional[bytes]:
    """The bytes of the value that a text gives, lowest first, else None."""
    number = float(text) if DECIMAL.fullmatch(text) else math.inf
    if math.isinf(number):
        return None
    try:
        return struct.pack(CODES[kind], number if kind == REAL64 else to_odd(text, number))
    except OverflowError:
        return None


def to_odd(text: str, nearest: float) -> float:
    """Of the two REAL64 round the number of a text the one with an odd last bit, or the number itself: the REAL32 nearest to it is
    the one nearest to the number, where the nearest REAL64 may be a tie that the number isn't."""
    bits = int.from_bytes(struct.pack("<d", nearest), "little")
    if nearest == 0 or bits & 1 or Decimal(text) == Decimal(nearest):
        return nearest
    bits += 1 if Decimal(text).copy_abs() > Decimal(nearest).copy_abs() else -1         # `abs` would round
    return number_of(REAL64, bits.to_bytes(8, "little"))


def number_of(kind: int, data: bytes) -> float:
    """The number that the bytes of a value are; infinities and NaNs among them."""
    number: float = struct.unpack(CODES[kind], data)[0]
    return number


def greatest_text(kind: int) -> str:
    """The greatest number of a data type."""
    return text_of(kind, bytes.fromhex({REAL32: "FFFF7F7F", REAL64: "FFFFFFFFFFFFEF7F"}[kind]))


@functools.lru_cache(maxsize=4096)
def text_of(kind: int, data: bytes) -> str:
    """The shortest decimal number that reads back as a value; `NaN`, `inf` and `-inf` of those that a frame alone can bring."""
    number = number_of(kind, data)
    if math.isnan(number):
        return "NaN"
    if kind == REAL32 and math.isfinite(number):
        number = shortest(number, data)
    text = repr(number)
    return text[:-2] if text.endswith(".0") else text


def shortest(number: float, data: bytes) -> float:
    """The decimal number of the fewest digits that reads back as a REAL32, the nearest of several, as a REAL64."""
    least = 1 if of_digits(number, data, USUAL_DIGITS) is not None else USUAL_DIGITS + 1
    found = (of_digits(number, data, digits) for digits in range(least, MOST_DIGITS + 1))
    return float(next(each for each in found if each is not None))


def of_digits(number: float, data: bytes, digits: int) -> Optional[Decimal]:
    """The decimal number of so many digits that reads back as a REAL32, the nearest of several, None where there is none."""
    exact = Decimal(number)
    below, above = (Context(prec=digits, rounding=way).create_decimal(exact) for way in (ROUND_DOWN, ROUND_UP))
    both = (below, above) if abs(exact - below) <= abs(above - exact) else (above, below)
    return next((each for each in both if data_of(REAL32, str(each)) == data), None)
