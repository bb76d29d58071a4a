"""The client of SDO transfers (CiA 301): it reads and writes one entry of a device at a time.

Its frames are those of docs/rules/sdo.md; block transfers are in sdo_block.py.
"""
from typing import Callable, Optional

from ..trace import Frame
from .connection import Connection
from .transfer import (ANSWERS, BOOT_UPS, COMMAND, GENERAL, REQUESTS, TIMED_OUT, TOGGLE, Aborted, Booted, Disturbed,
                       Key, Unanswered, entry_of, named)

SEGMENT = 7
MOST = 64 << 20     # bytes of a value
UNASKED = "an answer came that nothing asked for: two devices have this number, or another program talks with it"
FOREIGN = "another program sends SDO requests to it"


class SdoClient:
    """The client for a node, with one transfer at a time; a failed one raises `Failed`.

    timeout   the seconds within which each answer has to come
    key       the entry of the transfer that is open, None for none
    step      is called with how many bytes of a long value are there
    """

    def __init__(self, connection: Connection, node: int, timeout: float,
                 step: Callable[[int], None] = lambda count: None) -> None:
        self.connection, self.node, self.timeout, self.step = connection, node, timeout, step
        self.requests, self.answers = REQUESTS + node, ANSWERS + node
        self.key: Optional[Key] = None

    # The two transfers.

    def read(self, key: Key, size: Optional[int] = None) -> bytes:
        """The bytes of an entry; `size` is how many they are where the device doesn't say it."""
        self.begin(key)
        answer = self.ask(b"\x40" + named(key) + bytes(4))
        self.check_entry(answer, 0x40, key)
        data = self._expedited(answer, size) if answer[0] & 0x02 else self._segments(answer)
        self.key = None
        return data

    def write(self, key: Key, data: bytes) -> None:
        """Writes the bytes of an entry."""
        self.begin(key)
        if 1 <= len(data) <= 4:
            command = 0x23 | 4 - len(data) << 2
            self.check_entry(self.ask(bytes([command]) + named(key) + data.ljust(4, b"\0")), 0x60, key)
        else:
            self.check_entry(self.ask(b"\x21" + named(key) + len(data).to_bytes(4, "little")), 0x60, key)
            self._send_segments(data)
        self.key = None

    @staticmethod
    def _expedited(answer: bytes, size: Optional[int]) -> bytes:
        """The bytes of an answer that has them itself."""
        return answer[4:8 - (answer[0] >> 2 & 3)] if answer[0] & 0x01 else answer[4:8][:size]

    def _segments(self, answer: bytes) -> bytes:
        """The bytes that come in segments, as many as the first answer says where it does."""
        size = int.from_bytes(answer[4:8], "little") if answer[0] & 0x01 else None
        data, toggle, is_last = b"", 0, False
        while not is_last:
            answer = self.ask(bytes([0x60 | toggle << 4]) + bytes(7))
            self.check_command(answer, 0xE0, 0x00, "a segment")
            self._check_toggle(answer, toggle)
            part, is_last = answer[1:8 - (answer[0] >> 1 & 7)], bool(answer[0] & 0x01)
            if not part and not is_last:
                raise self.abort(COMMAND, "its segment has no byte, and isn't the last one")
            data, toggle = data + part, 1 - toggle
            self.check_length(data, size, is_last)
            self.step(len(part))
        return data

    def check_length(self, data: bytes, size: Optional[int], is_whole: bool) -> None:
        """Whether so many bytes can come; `size` is how many were announced, None where that wasn't said."""
        if len(data) > (MOST if size is None else size) or is_whole and size is not None and len(data) < size:
            announced = f"{size:,} were announced" if size is not None else f"at most {MOST:,} are taken"
            raise self.abort(COMMAND, f"{len(data):,} bytes came, and {announced}")

    def _send_segments(self, data: bytes) -> None:
        """Sends bytes in segments; an empty value is one segment of none."""
        for number, place in enumerate(range(0, max(len(data), 1), SEGMENT)):
            part, toggle = data[place:place + SEGMENT], number & 1
            command = toggle << 4 | SEGMENT - len(part) << 1 | (place + SEGMENT >= len(data))
            answer = self.ask(bytes([command]) + part.ljust(SEGMENT, b"\0"))
            self.check_command(answer, 0xE0, 0x20, "the answer to a segment")
            self._check_toggle(answer, toggle)
            self.step(len(part))

    # Frames out and in.

    def begin(self, key: Key) -> None:
        """Begins a transfer; whatever came before it is looked at."""
        self.key = key
        self.check_quiet()

    def check_quiet(self, seconds: float = 0) -> None:
        """Whether nothing came of the node that nothing asked for, now and for a time."""
        for frame in self.connection.listen(seconds) if seconds else self.connection.waiting():
            self._check_foreign(frame)
            if frame.identifier == self.answers:
                raise Disturbed(self.node, self.key, UNASKED)

    def _check_foreign(self, frame: Frame) -> None:
        """Whether a frame is one that breaks the transfer."""
        if frame.identifier == BOOT_UPS + self.node and frame.data[:1] == b"\0":
            raise Booted(self.node, self.key)
        if frame.identifier == self.requests:
            raise Disturbed(self.node, self.key, FOREIGN)

    def ask(self, request: bytes) -> bytes:
        """Sends a request, and gives its answer; an abort is raised."""
        self.put(request)
        return self.answer()

    def put(self, request: bytes) -> None:
        self.connection.send(self.requests, request)

    def answer(self) -> bytes:
        """The next answer of the node, which is no abort; where the user doesn't wait for it, the transfer ends."""
        try:
            return self._answer()
        except KeyboardInterrupt:
            self.give_up()
            raise

    def _answer(self) -> bytes:
        until, bits = self.connection.clock.monotonic() + self.timeout, 0
        while True:
            frame = self.connection.receive(until)
            if frame is None:
                self._send_abort(TIMED_OUT)
                raise Unanswered(self.node, self.key, self.timeout, self.connection.filled(bits, self.timeout))
            bits += frame.bits
            self._check_foreign(frame)
            if frame.identifier == self.answers and len(frame.data) == 8:
                return self._without_abort(frame.data)

    def _without_abort(self, answer: bytes) -> bytes:
        if answer[0] == 0x80:
            raise Aborted(self.node, self.key, int.from_bytes(answer[4:8], "little"))
        return answer

    # What is wrong with an answer.

    def check_command(self, answer: bytes, mask: int, wanted: int, what: str) -> None:
        if answer[0] & mask != wanted:
            raise self.abort(COMMAND, f"its answer begins with {answer[0]:02X}h, which isn't {what}")

    def check_entry(self, answer: bytes, wanted: int, key: Key) -> None:
        """Whether an answer is that to the beginning of a transfer of an entry."""
        self.check_command(answer, 0xE0, wanted, "the answer to this request")
        if entry_of(answer) != key:
            raise self.abort(COMMAND, "its answer names another entry")

    def _check_toggle(self, answer: bytes, toggle: int) -> None:
        if answer[0] >> 4 & 1 != toggle:
            raise self.abort(TOGGLE, "its segment has the wrong toggle bit")

    def abort(self, number: int, why: str) -> Aborted:
        """Ends the open transfer, and gives what it failed with."""
        self._send_abort(number)
        return Aborted(self.node, self.key, number, True, why)

    def _send_abort(self, number: int) -> None:
        self.put(b"\x80" + named(self.key or (0, 0)) + number.to_bytes(4, "little"))

    def give_up(self) -> None:
        """Ends the transfer that is open, if one is."""
        if self.key is not None:
            self._send_abort(GENERAL)
            self.key = None
