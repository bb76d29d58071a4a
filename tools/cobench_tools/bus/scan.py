"""Asks every number on the bus who it is; nothing is written."""
from typing import Callable, Dict, Optional

from . import identity
from .connection import PACE, Connection
from .neighbours import Neighbours
from .sdo_client import SdoClient
from .transfer import ANSWERS, REQUESTS, Failed, entry_of, named


class Found:
    """A number that was heard or that answered.

    answers  how often it answered the one request
    numbers  its identity, None where it doesn't answer
    why      why it doesn't, in words
    """

    def __init__(self, number: int) -> None:
        self.number, self.answers, self.why = number, 0, "no SDO answer"
        self.numbers: Optional[identity.Numbers] = None


class Scan:
    """All that answers on a bus, by number.

    others  what was heard besides
    """

    def __init__(self, bus: Connection, others: Neighbours, timeout: float,
                 step: Callable[[], None] = lambda: None) -> None:
        self.bus, self.others, self.timeout = bus, others, timeout
        self.found: Dict[int, Found] = {}
        self._ask_all(step)
        for number in sorted(self.found):
            self._identify(self.found[number])
        for number in others.heard:
            self.of(number)

    def of(self, number: int) -> Found:
        """What was found of a number."""
        return self.found.setdefault(number, Found(number))

    def _ask_all(self, step: Callable[[], None]) -> None:
        """Has each number answer once."""
        for number in range(1, 128):
            self.bus.send(REQUESTS + number, b"\x40" + named(identity.DEVICE_TYPE) + bytes(4))
            self._take(PACE)
            step()
        self._take(self.timeout)

    def _take(self, seconds: float) -> None:
        until = self.bus.clock.monotonic() + seconds
        frame = self.bus.receive(until)
        while frame:
            number = frame.identifier - ANSWERS
            if 1 <= number <= 127 and len(frame.data) == 8 and entry_of(frame.data) == identity.DEVICE_TYPE:
                self.of(number).answers += 1
            frame = self.bus.receive(until)

    def _identify(self, found: Found) -> None:
        try:
            found.numbers = identity.read(SdoClient(self.bus, found.number, self.timeout))
        except Failed as why:
            found.why = why.text
