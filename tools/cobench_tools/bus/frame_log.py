"""The log of what was sent and received, as candump -L writes it and `conform` reads it."""
import os
import re
from typing import Any

from .. import tool

EXTENDED_FLAG, REMOTE_MARK, FLEXIBLE_MARK = 0x20000000, "R", "#0"


def channel_word(channel: Any) -> str:
    """The name of a channel as one word of a log."""
    return re.sub("[^A-Za-z0-9_]", "_", str(channel or "")) or "can0"


def may_be_replaced(path: str) -> bool:
    """Whether a file isn't there, is none with content, as a pipe, or begins as a log."""
    if not os.path.isfile(path):
        return True
    with open(path, "rb") as file:
        return file.read(1) in (b"", b"(")


class FrameLog:
    """A log file that is written frame by frame; its times never go backwards."""

    def __init__(self, path: str, channel: Any) -> None:
        self.path, self.channel, self.last, self.lines = path, channel_word(channel), 0, 0
        try:
            if not may_be_replaced(path):
                raise tool.Fault(f"{path} is there, and is no log: it isn't replaced")
            self.file = open(path, "w", buffering=1, encoding="ascii", newline="\n")
        except OSError as error:
            raise tool.Fault(f"{path}: {error.strerror}") from None
        except ValueError:
            raise tool.Fault(f"{path}: no file has such a name") from None

    def put(self, micros: int, text: str) -> None:
        """Writes a frame, whose identifier and bytes are this text, at a time in microseconds."""
        self.last, self.lines = max(self.last, micros), self.lines + 1
        seconds, rest = divmod(self.last, 1_000_000)
        try:
            self.file.write(f"({seconds:010}.{rest:06}) {self.channel} {text}\n")
        except OSError as error:
            raise tool.Fault(f"{self.path}: {error.strerror}") from None

    def close(self) -> None:
        try:
            self.file.close()
        except OSError as error:
            raise tool.Fault(f"{self.path}: {error.strerror}") from None


def text_of(message: Any) -> str:
    """The identifier and bytes of a message of python-can, as candump -L writes them."""
    identifier, data = message.arbitration_id, bytes(message.data).hex().upper()
    if message.is_error_frame:
        return f"{EXTENDED_FLAG | identifier & EXTENDED_FLAG - 1:08X}#{data}"
    digits = f"{identifier:08X}" if message.is_extended_id else f"{identifier:03X}"
    if message.is_remote_frame:
        return f"{digits}#{REMOTE_MARK}"
    return f"{digits}#{FLEXIBLE_MARK if message.is_fd else ''}{data}"
