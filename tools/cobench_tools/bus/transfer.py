"""What an SDO transfer can come to, and the numbers that its frames have."""
from typing import Optional, Tuple

from ..meaning import ABORTS

# An entry by its index and sub-index.
Key = Tuple[int, int]

REQUESTS, ANSWERS, BOOT_UPS = 0x600, 0x580, 0x700

TOGGLE, TIMED_OUT, COMMAND = 0x05030000, 0x05040000, 0x05040001
BLOCK_SIZE, SEQUENCE, CRC = 0x05040002, 0x05040003, 0x05040004
GENERAL = 0x08000000


def entry_of(data: bytes) -> Key:
    """The entry that a frame names."""
    return int.from_bytes(data[1:3], "little"), data[3]


def named(key: Key) -> bytes:
    """Three bytes that name an entry."""
    return key[0].to_bytes(2, "little") + bytes([key[1]])


def abort_words(code: int) -> str:
    """An abort in words."""
    return f"abort {code:08X} {ABORTS.get(code, '')}".strip()


class Failed(Exception):
    """Why a transfer failed.

    code  the code of a finding that tells it
    text  what happened, in words
    """

    def __init__(self, code: str, node: Optional[int], key: Optional[Key], text: str) -> None:
        super().__init__(text)
        self.code, self.node, self.key, self.text = code, node, key, text


class Aborted(Failed):
    """The device or the client ended the transfer by an abort."""

    def __init__(self, node: Optional[int], key: Optional[Key], number: int, is_own: bool = False,
                 why: str = "") -> None:
        text = abort_words(number) + (" by this program" if is_own else "") + (f": {why}" if why else "")
        super().__init__("sdo-abort", node, key, text)
        self.number, self.is_own = number, is_own


class Unanswered(Failed):
    """No answer came in time.

    filled  the per cent of the bus that frames took meanwhile, None where they left it room
    """

    def __init__(self, node: Optional[int], key: Optional[Key], seconds: float, filled: Optional[int] = None) -> None:
        full = f"; frames filled the bus to {filled} % meanwhile: cobtool load says which" if filled else ""
        super().__init__("sdo-unanswered", node, key, f"no answer in {seconds * 1000:g} ms{full}")


class Booted(Failed):
    """The device booted in the middle: what was written before is lost."""

    def __init__(self, node: Optional[int], key: Optional[Key]) -> None:
        super().__init__("boots-again", node, key, "its boot-up message came in the middle")


class Disturbed(Failed):
    """Somebody else takes part in the transfer."""

    def __init__(self, node: Optional[int], key: Optional[Key], text: str) -> None:
        super().__init__("disturbed", node, key, text)
