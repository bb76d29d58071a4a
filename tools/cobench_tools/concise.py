"""Concise DCFs: the writes by which a manager configures a node (docs/rules/concise_dcf.md)."""
from . import tool


def bytes_of(lines):
    """The bytes that `cdcf` prints in these lines."""
    try:
        return bytes.fromhex(b" ".join(lines).decode("ascii"))
    except ValueError:
        raise tool.Fault("the reply to cdcf is no concise DCF") from None


def writes_of(data):
    """The writes of a concise DCF in their order: index, sub-index and bytes of each."""
    writes, place = [], 4
    while place + 7 <= len(data):
        index, sub = int.from_bytes(data[place:place + 2], "little"), data[place + 2]
        size = int.from_bytes(data[place + 3:place + 7], "little")
        place += 7 + size
        writes.append((index, sub, data[place - size:place]))
    if place != len(data) or len(writes) != int.from_bytes(data[:4], "little"):
        raise tool.Fault("the reply to cdcf is no concise DCF")
    return writes


def values_of(lines):
    """The last value, as bytes, of each entry that the lines of `cdcf` write, by index and sub-index."""
    return {(index, sub): data for index, sub, data in writes_of(bytes_of(lines))}
