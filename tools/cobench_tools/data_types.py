"""The data types that cobench models, by their codes in CiA 301: which each version of scripts has, their names, and the bits of
a value (docs/rules/values.md).

Version 3 has more of them than versions 1 and 2: integers of 24, 40, 48 and 56 bits, REAL32 and REAL64.
"""
from typing import Dict, FrozenSet

BOOLEAN, VISIBLE_STRING, OCTET_STRING, DOMAIN = 0x01, 0x09, 0x0A, 0x0F
UNSIGNED8, REAL32, REAL64 = 0x05, 0x08, 0x11
WHOLE = 3           # the version of scripts that has all of them

SIGNED: Dict[int, int] = {0x02: 8, 0x03: 16, 0x10: 24, 0x04: 32, 0x12: 40, 0x13: 48, 0x14: 56, 0x15: 64}
UNSIGNED: Dict[int, int] = {0x05: 8, 0x06: 16, 0x16: 24, 0x07: 32, 0x18: 40, 0x19: 48, 0x1A: 56, 0x1B: 64}
REALS: Dict[int, int] = {REAL32: 32, REAL64: 64}
NUMBERS: Dict[int, int] = {BOOLEAN: 1, **SIGNED, **UNSIGNED}        # what numbers and formulas give values
BITS: Dict[int, int] = {**NUMBERS, **REALS}                         # what has a width, and can be in a PDO
MODELLED: FrozenSet[int] = frozenset({*BITS, VISIBLE_STRING, OCTET_STRING, DOMAIN})
OF_VERSION_3: FrozenSet[int] = frozenset({0x10, 0x12, 0x13, 0x14, 0x16, 0x18, 0x19, 0x1A, *REALS})

NAMES: Dict[int, str] = {
    BOOLEAN: "BOOLEAN", **{kind: f"INTEGER{bits}" for kind, bits in SIGNED.items()},
    **{kind: f"UNSIGNED{bits}" for kind, bits in UNSIGNED.items()}, **{kind: f"REAL{bits}" for kind, bits in REALS.items()},
    VISIBLE_STRING: "VISIBLE_STRING", OCTET_STRING: "OCTET_STRING", 0x0B: "UNICODE_STRING", DOMAIN: "DOMAIN",
}


def is_modelled(kind: int, version: int) -> bool:
    """Whether scripts of a version have values of a data type."""
    return kind in MODELLED and (version >= WHOLE or kind not in OF_VERSION_3)


def type_name(kind: int) -> str:
    """The name of a data type, or its code where it has none here."""
    return NAMES.get(kind, f"data type {kind:04X}h" if kind else "no known type")


def are_unlike(one: int, other: int) -> bool:
    """Whether two modelled types can't meet in a PDO: one of them is a REAL, and they differ."""
    return one != other and (one in REALS or other in REALS)
