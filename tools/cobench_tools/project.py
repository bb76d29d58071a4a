"""The project that accepted edits make, with the line of the script that last set each part."""
import copy
import re
from typing import TYPE_CHECKING, Dict, Iterable, List, Optional, Sequence, Set, Tuple

from . import tool
from .digits import decimal, hexadecimal
from .script import Command

if TYPE_CHECKING:
    from .replies import Reply

RATES = 10, 20, 50, 125, 250, 500, 1000
SERVICES = 1, 2, 128, 129, 130
SWITCHES = "on", "off"
EDIT = re.compile("[a-z]+(-[a-z]+)?")
PRODUCER_TIME = 0x1017, 0
CONTROLLERS = 3     # from this version on a node may have the manager's number


class Message:
    """What one node sends in one TPDO; `words` are those of its command from TYPE on, and `numbers` what they are.

    receives  for nodes that a `receive` names its RPDO, 0 for the one that the plan gives, and its event time in ms
    """

    def __init__(self, node: int, tpdo: int, words: Sequence[str]) -> None:
        self.node, self.tpdo, self.words = node, tpdo, words
        self.numbers = numbers_of(*words)
        self.start = 0
        self.sources: Dict[int, Tuple[int, int]] = {}
        self.sinks: Dict[Tuple[int, int], Tuple[int, int]] = {}
        self.receives: Dict[int, Tuple[int, int]] = {}


def numbers_of(kind: str, inhibit: str, event: str, identifier: str) -> Tuple[int, int, int, int]:
    """Transmission type, inhibit time in units of 100 us, event time in ms, and COB-ID or 0."""
    return decimal(kind), decimal(inhibit), decimal(event), hexadecimal(identifier)


class Event:
    """What happens at a time: `set` (entry and text), `power` (on or off) or `nmt` (service) at a node."""

    def __init__(self, time: int, kind: str, node: int) -> None:
        self.time, self.kind, self.node = time, kind, node
        self.entry: Optional[Tuple[int, int]] = None
        self.what = ""


class Project:
    """What the accepted edits so far have made.

    time  the microseconds from TIME to TIME, and the day on which the run begins; None without TIME
    """

    def __init__(self) -> None:
        self.bitrate, self.horizon, self.manager = 1000, 1_000_000, (127, 0, 0, 500)
        self.version, self.sync_counter = 1, 0
        self.time: Optional[Tuple[int, int]] = None
        self.mandatory: Set[int] = set()
        self.texts: Dict[str, List[bytes]] = {}
        self.nodes: Dict[int, Tuple[str, str]] = {}
        self.params: Dict[Tuple[int, int, int], str] = {}
        self.messages: Dict[str, Message] = {}
        self.events: Dict[int, Event] = {}

    def take(self, command: Command) -> None:
        """Takes an accepted command."""
        name, *words = command.shown_words
        edit = getattr(self, "_" + name.replace("-", "_"), None) if EDIT.fullmatch(name) else None
        try:
            if edit:
                edit(command, words)
        except (IndexError, KeyError, ValueError):
            raise tool.Fault(
                f"line {command.number} of the script can't be accepted, and its reply says so: they are of "
                f"different sessions: {tool.shown(command.line)}") from None

    @property
    def controller(self) -> Optional[int]:
        """The node that the manager runs in, which has its number; None for none."""
        return self.manager[0] if self.manager[0] in self.nodes else None

    @property
    def booted(self) -> List[int]:
        """The nodes that the manager boots, by number: all but the controller."""
        return sorted(node for node in self.nodes if node != self.controller)

    def is_idle(self, event: Event) -> bool:
        """Whether an event does nothing: of the controller neither the power is switched nor the heartbeat time asked."""
        return event.node == self.controller and (event.kind == "power" or event.entry == PRODUCER_TIME)

    def node_there(self, word: str) -> int:
        """The number of a node, which has to be there."""
        node = decimal(word)
        if node not in self.nodes:
            raise KeyError(node)
        return node

    def node_or_all(self, word: str) -> int:
        """The number of a node that is there, or 0 for all."""
        return 0 if decimal(word) == 0 else self.node_there(word)

    def copy(self) -> "Project":
        """The project as it is now."""
        return copy.deepcopy(self)

    def uses(self, node: int) -> List[str]:
        """What keeps a node from being dropped."""
        found = [f"message {name} is sent by it" for name, message in sorted(self.messages.items()) if message.node == node]
        for name, message in sorted(self.messages.items()):
            found += [f"sink {name} {at} is of it" for at, sink in sorted(message.sinks) if sink == node]
            found += [f"a receive of {name} names it"] if node in message.receives else []
        return found + [f"event {key} is of it" for key, event in sorted(self.events.items()) if event.node == node]

    def _bitrate(self, command: Command, words: List[str]) -> None:
        self.bitrate = decimal(words[0])
        if self.bitrate not in RATES:
            raise ValueError("no bit rate")

    def _horizon(self, command: Command, words: List[str]) -> None:
        self.horizon = decimal(words[0])

    def _manager(self, command: Command, words: List[str]) -> None:
        node, sync, heartbeat, timeout = map(decimal, words)
        self.manager = node, sync, heartbeat, timeout

    def _version(self, command: Command, words: List[str]) -> None:
        self.version = decimal(words[0])

    def _time_period(self, command: Command, words: List[str]) -> None:
        period, day = map(decimal, words)
        self.time = (period, day) if period else None

    def _sync_counter(self, command: Command, words: List[str]) -> None:
        self.sync_counter = decimal(words[0])

    def _need(self, command: Command, words: List[str]) -> None:
        change = self.mandatory.add if words[1] == "mandatory" else self.mandatory.discard
        change(self.node_there(words[0]))

    def _eds(self, command: Command, words: List[str]) -> None:
        self.texts[words[0]] = command.block or []

    def _drop_eds(self, command: Command, words: List[str]) -> None:
        if any(eds == words[0] for _, eds in self.nodes.values()):
            raise KeyError(words[0])
        del self.texts[words[0]]

    def _node(self, command: Command, words: List[str]) -> None:
        name, eds = words[1:]
        if eds not in self.texts:
            raise KeyError(eds)
        self.nodes[decimal(words[0])] = name, eds

    def _drop_node(self, command: Command, words: List[str]) -> None:
        node = self.node_there(words[0])
        if self.uses(node):
            raise KeyError(node)
        del self.nodes[node]
        self.mandatory.discard(node)
        self.params = {key: text for key, text in self.params.items() if key[0] != node}

    def _param(self, command: Command, words: List[str]) -> None:
        self.params[self.node_there(words[0]), hexadecimal(words[1]), hexadecimal(words[2])] = tool.shown(command.text_from(4))

    def _unparam(self, command: Command, words: List[str]) -> None:
        del self.params[decimal(words[0]), hexadecimal(words[1]), hexadecimal(words[2])]

    def _message(self, command: Command, words: List[str]) -> None:
        message = Message(self.node_there(words[1]), decimal(words[2]), words[3:])
        known = self.messages.get(words[0])
        if known:
            message.start, message.sources, message.sinks = known.start, known.sources, known.sinks
            message.receives = known.receives
        self.messages[words[0]] = message

    def _start(self, command: Command, words: List[str]) -> None:
        self.messages[words[0]].start = decimal(words[1])

    def _drop_message(self, command: Command, words: List[str]) -> None:
        del self.messages[words[0]]

    def _source(self, command: Command, words: List[str]) -> None:
        self.messages[words[0]].sources[decimal(words[1])] = hexadecimal(words[2]), hexadecimal(words[3])

    def _unsource(self, command: Command, words: List[str]) -> None:
        self.messages[words[0]].sources.pop(decimal(words[1]))

    def _sink(self, command: Command, words: List[str]) -> None:
        entry = hexadecimal(words[3]), hexadecimal(words[4])
        self.messages[words[0]].sinks[decimal(words[1]), self.node_there(words[2])] = entry

    def _unsink(self, command: Command, words: List[str]) -> None:
        self.messages[words[0]].sinks.pop((decimal(words[1]), decimal(words[2])))

    def _receive(self, command: Command, words: List[str]) -> None:
        self.messages[words[0]].receives[self.node_there(words[1])] = decimal(words[2]), decimal(words[3])

    def _unreceive(self, command: Command, words: List[str]) -> None:
        del self.messages[words[0]].receives[decimal(words[1])]

    def _event(self, command: Command, words: List[str]) -> None:
        kind = words[2]
        event = Event(decimal(words[1]), kind, self.node_or_all(words[4]) if kind == "nmt" else self.node_there(words[3]))
        if kind == "set":
            event.entry = hexadecimal(words[4]), hexadecimal(words[5])
            event.what = tool.shown(command.text_from(7))
        else:
            event.what = words[3 if kind == "nmt" else 4]
            if event.what not in SWITCHES if kind == "power" else kind != "nmt" or decimal(event.what) not in SERVICES:
                raise ValueError(event.what)
        self.events[decimal(words[0])] = event

    def _drop_event(self, command: Command, words: List[str]) -> None:
        del self.events[decimal(words[0])]


def after(pairs: "Iterable[Tuple[Command, Reply]]") -> Project:
    """The project after these commands, by their replies."""
    project = Project()
    for command, reply in pairs:
        if reply.is_accepted():
            project.take(command)
    return project
