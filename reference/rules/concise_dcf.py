"""The concise DCF: docs/rules/concise_dcf.md."""
import struct
from typing import NamedTuple
from .write_check import Place

class Write(NamedTuple):
    """The data that an entry gets. A dict of some has the last data of each entry."""
    place: Place
    data: bytes

def text_of(writes):
    """How many they are, and of each its index, its sub-index, its length and its data."""
    return struct.pack("<I", len(writes)) + b"".join(
        struct.pack("<HBI", *place, len(data)) + data for place, data in writes)
