"""What others on the bus do: which nodes are heard and in which state, and what shows that there is another master."""
import argparse
from typing import Callable, Dict, List, Optional, Set

from .. import tool
from ..meaning import STATES
from ..trace import Frame
from . import timing
from .connection import Connection
from .transfer import ANSWERS, BOOT_UPS, REQUESTS

COMMANDS, EMERGENCIES, LSS_MASTER = 0x000, 0x080, 0x7E5
OPERATIONAL, PRE_OPERATIONAL = 0x05, 0x7F
LISTENING = 1.0         # seconds for which the bus is listened to before something is sent


def seconds_of(options: argparse.Namespace) -> float:
    """How long the bus is listened to before the first frame is sent."""
    if options.listen is None:
        return LISTENING
    if not 0 <= options.listen <= timing.MOST:
        raise tool.Fault(f"--listen is 0 to {timing.MOST:,} milliseconds, not {options.listen:,}")
    return options.listen / 1000


def add_arguments(parser: argparse.ArgumentParser) -> None:
    """The word that says how long."""
    parser.add_argument("--listen", metavar="MS", type=int,
                        help="listen for other masters for so many milliseconds first; "
                        f"{LISTENING * 1000:g} without it")


def listened(bus: Connection, options: argparse.Namespace, manager: Optional[int] = None) -> "Neighbours":
    """What others do on the bus, once it was listened to; it goes on taking their frames."""
    others = Neighbours(manager)
    bus.observers.append(others.take)
    bus.listen(seconds_of(options))
    return others


def wait(bus: Connection, seconds: float, is_over: Callable[[], bool]) -> bool:
    """Takes what comes until something is so, for so many seconds at most; whether it is."""
    until = bus.clock.monotonic() + seconds
    while not is_over():
        if bus.receive(until) is None:
            return is_over()
    return True


class Neighbours:
    """What the frames of the others show.

    states   the state that the last heartbeat of each number told; of one that boots it is 0
    boots    how many boot-up messages came of each number
    heard    the numbers of which something was heard
    masters  what shows another master, in words, with how often it was there
    """

    def __init__(self, manager: Optional[int] = None) -> None:
        self.manager = manager
        self.states: Dict[int, Optional[int]] = {}
        self.boots: Dict[int, int] = {}
        self.heard: Set[int] = set()
        self.masters: Dict[str, int] = {}

    def take(self, frame: Frame) -> None:
        """A frame of another came."""
        service, node = frame.identifier & 0x780, frame.identifier & 0x7F
        if frame.identifier == COMMANDS:
            self._shows("it sends NMT commands (000h)")
        elif frame.identifier == LSS_MASTER:
            self._shows("it sends LSS commands (7E5h)")
        elif service == REQUESTS and node:
            self._shows(f"it sends SDO requests to node {node} ({frame.identifier:03X}h)")
        elif service == BOOT_UPS and node:
            self._heartbeat(node, frame.data)
        elif node and service in (ANSWERS, EMERGENCIES):
            self.heard.add(node)

    def _shows(self, words: str) -> None:
        self.masters[words] = self.masters.get(words, 0) + 1

    def _heartbeat(self, node: int, data: bytes) -> None:
        if node == self.manager:
            self._shows(f"it sends the heartbeat of the manager, node {node} ({BOOT_UPS + node:03X}h)")
        else:
            self.heard.add(node)
        state = data[0] & 0x7F if data else None
        if state == 0:
            self.boots[node] = self.boots.get(node, 0) + 1
        self.states[node] = state

    def state_text(self, node: int) -> str:
        """The state of a node in words."""
        state = self.states.get(node)
        return "not heard" if state is None else STATES.get(state, f"state {state:02X}h")

    def of_masters(self) -> List[str]:
        """A line on each thing that shows another master."""
        return [f"another master is on the bus: {words}" + (f", {count} times" if count > 1 else "")
                for words, count in self.masters.items()]
