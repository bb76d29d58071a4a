"""Refusals, by number and name: docs/rules/commands.md, Faults."""

SYNTAX, RANGE, UNKNOWN, TAKEN = b"2 Syntax", b"3 Range", b"4 Unknown", b"5 Taken"
IN_USE, LIMIT, BAD_BYTE, TRUNCATED = b"6 InUse", b"7 Limit", b"8 BadByte", b"9 Truncated"

class Refused(Exception):
    """Why a command isn't accepted."""

def refuse_unless(condition, why):
    if not condition:
        raise Refused(why)
