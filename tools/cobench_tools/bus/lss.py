"""The master of the layer setting services (CiA 305): numbers and bit rates of devices that have none yet."""
from typing import Dict, List, Optional

from ..trace import Frame
from .connection import Connection
from .transfer import Failed

MASTER, SLAVE = 0x7E5, 0x7E4
WAITING, CONFIGURATION = 0, 1
SWITCH, SELECTED = 0x04, 0x44
SELECT = (0x40, 0x41, 0x42, 0x43)
INQUIRE = {"vendor": 0x5A, "product": 0x5B, "revision": 0x5C, "serial number": 0x5D}
INQUIRE_NODE, SET_NODE, SET_RATE, STORE = 0x5E, 0x11, 0x13, 0x17
UNCONFIGURED = 0xFF

# kbit/s by the index in the table of CiA 305; index 5 is reserved.
RATES = {1000: 0, 800: 1, 500: 2, 250: 3, 125: 4, 50: 6, 20: 7, 10: 8}
ERRORS = {SET_NODE: {1: "the number isn't one that it can have"}, SET_RATE: {1: "it hasn't this bit rate"},
          STORE: {1: "it can't store", 2: "its memory fails"}}


class Refused(Failed):
    """A device refuses a service."""

    def __init__(self, service: int, error: int, special: int) -> None:
        why = ERRORS[service].get(error, f"error {error}" + (f", {special:02X}h" if error == 0xFF else ""))
        super().__init__("lss", None, None, why)


class Silent(Failed):
    """No device answers."""

    def __init__(self, what: str) -> None:
        super().__init__("lss", None, None, f"no device answers to {what}")


class Several(Failed):
    """More than one device answers."""

    def __init__(self, count: int) -> None:
        super().__init__("lss", None, None, f"{count} devices answer: all of them would be set")


def is_answer(frame: Frame, command: int) -> bool:
    """Whether a frame is a device's answer to a command."""
    return frame.identifier == SLAVE and frame.data[:1] == bytes([command])


class Master:
    """Sends commands, and takes the answers."""

    def __init__(self, bus: Connection, timeout: float) -> None:
        self.bus, self.timeout = bus, timeout

    def send(self, command: int, data: bytes = b"") -> None:
        self.bus.send(MASTER, bytes([command]) + data.ljust(7, b"\0"))

    def answers(self, command: int) -> List[bytes]:
        """All answers to a command that come in time."""
        return [frame.data for frame in self.bus.listen(self.timeout) if is_answer(frame, command)]

    def answer(self, command: int, what: str) -> bytes:
        """The first answer to a command."""
        until = self.bus.clock.monotonic() + self.timeout
        frame = self.bus.receive(until)
        while frame:
            if is_answer(frame, command):
                return frame.data
            frame = self.bus.receive(until)
        raise Silent(what)

    # Which devices are meant.

    def select_all(self) -> None:
        """All devices are configured from now on; only one may be there."""
        self.send(SWITCH, bytes([CONFIGURATION]))
        self.send(INQUIRE["vendor"])
        count = len(self.answers(INQUIRE["vendor"]))
        if count == 0:
            raise Silent("LSS")
        if count > 1:
            raise Several(count)

    def select(self, identity: List[int]) -> None:
        """The device with these four numbers is configured from now on."""
        for command, number in zip(SELECT, identity):
            self.send(command, number.to_bytes(4, "little"))
        self.answer(SELECTED, "this identity")

    def release(self) -> None:
        """All devices work again."""
        self.send(SWITCH, bytes([WAITING]))

    # What is asked and set.

    def identity(self) -> Dict[str, int]:
        """The numbers of the device, by name."""
        return {name: self._inquire(command, name, 4) for name, command in INQUIRE.items()}

    def node(self) -> Optional[int]:
        """The number of the device, None where it has none."""
        number = self._inquire(INQUIRE_NODE, "its number", 1)
        return None if number == UNCONFIGURED else number

    def _inquire(self, command: int, what: str, size: int) -> int:
        self.send(command)
        return int.from_bytes(self.answer(command, f"the question for {what}")[1:1 + size], "little")

    def set_node(self, number: int) -> None:
        self._set(SET_NODE, bytes([number]))

    def set_rate(self, kilobits: int) -> None:
        self._set(SET_RATE, bytes([0, RATES[kilobits]]))

    def store(self) -> None:
        self._set(STORE, b"")

    def _set(self, command: int, data: bytes) -> None:
        self.send(command, data)
        answer = self.answer(command, "what it is to do")
        if answer[1]:
            raise Refused(command, answer[1], answer[2])
