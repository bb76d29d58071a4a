"""Numbers in texts: digits of ASCII alone, and no more of them than a number of cobench can have, before any is made."""
import re

DECIMAL = re.compile("[0-9]{1,20}")
HEXADECIMAL = re.compile("[0-9A-Fa-f]{1,16}")


def decimal(text: str) -> int:
    """The number of decimal digits; a ValueError for any other text."""
    if not DECIMAL.fullmatch(text):
        raise ValueError("no decimal number")
    return int(text)


def hexadecimal(text: str) -> int:
    """The number of hexadecimal digits; a ValueError for any other text."""
    if not HEXADECIMAL.fullmatch(text):
        raise ValueError("no hexadecimal number")
    return int(text, 16)
