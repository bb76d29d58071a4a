"""Values as they go over the bus: their bytes out of words, and words out of their bytes."""
import math
import re
from typing import Optional

from .. import reals, tool, values
from ..data_types import BITS, BOOLEAN, MODELLED, NAMES, NUMBERS, REALS, SIGNED, VISIBLE_STRING, type_name
from ..matrix import value_text

CONTROL = re.compile(rb"[\x00-\x1f\x7f]")
KINDS = {NAMES[kind]: kind for kind in NAMES if kind in MODELLED}


def kind_of(name: str) -> int:
    """The data type of a name."""
    kind = KINDS.get(name.upper())
    if kind is None:
        raise tool.Fault(f"no data type {name}; there are {', '.join(KINDS)}")
    return kind


def size_of(kind: int) -> Optional[int]:
    """How many bytes each value of a data type has, None where they differ."""
    return (BITS[kind] + 7) // 8 if kind in BITS else None


def data_of(kind: int, text: str, node: int) -> Optional[bytes]:
    """The bytes of the value that a text gives at a node, else None."""
    return values.data_of(kind, text, node)


def text_of(kind: int, data: bytes) -> str:
    """Bytes as a value of a data type; those that can't be one, and those of no known type, as they stand."""
    if size_of(kind) not in (None, len(data)) or kind not in KINDS.values():
        return data.hex(" ").upper() or "no byte"
    return value_text(kind, data) or "no byte"


def sheet_text(kind: int, data: bytes) -> Optional[str]:
    """Bytes as a data sheet has a value of a data type, which reads back as these bytes; None where none does."""
    if size_of(kind) not in (None, len(data)):
        return None
    if kind in REALS:
        return reals.text_of(kind, data) if math.isfinite(reals.number_of(kind, data)) else None
    if kind == BOOLEAN:
        return str(data[0])
    if kind in SIGNED:
        return str(int.from_bytes(data, "little", signed=True))
    if kind in NUMBERS:
        return f"0x{int.from_bytes(data, 'little'):0{2 * len(data)}X}"
    if kind == VISIBLE_STRING:
        return tool.shown(data) if data == data.strip(b" \t") and not CONTROL.search(data) else None
    return data.hex().upper() if kind in MODELLED else None


def why_none(kind: int, text: str) -> str:
    """Why a text gives no value of a data type."""
    name = type_name(kind)
    if kind in REALS:
        return f"{text} is no {name}, which is decimal, as 2.5, -4 and 1e-3, and at most {reals.greatest_text(kind)}"
    if kind in NUMBERS:
        low, high = values.range_of(kind)
        return f"{text} is no {name}, which is {low} to {high}; a hexadecimal number is written 0x10"
    how = ", which is written in pairs of hexadecimal digits" if kind in MODELLED else ""
    return f"{text} is no {name}{how}"
