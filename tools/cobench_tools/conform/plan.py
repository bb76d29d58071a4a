"""What a script plans for the bus: of each node its boot and its heartbeat, of each TPDO when it comes and with what."""
from .. import concise, findings, matrix, reals, trace, values
from ..data_types import REALS, SIGNED
from ..evidence import Evidence
from ..logs.rows import key_of
from ..traffic import plain_bits
from ..wiring import RPDO, TPDO, Wiring, pdo_of
from . import keys

IDENTITY = ((0x1000, 0), (0x1018, 1), (0x1018, 2), (0x1018, 3), (0x1018, 4))
HEARTBEAT_TIME, WINDOW, COUNTER, ON_ERROR = (0x1017, 0), (0x1007, 0), (0x1019, 0), (0x1029, 1)
PDO_OBJECTS = range(0x1400, 0x1C00)


class Limit:
    """What the value of a part of a PDO may be: least and greatest number, and whose limits they are."""

    def __init__(self, part, key, name, low, high):
        self.part, self.key, self.name, self.low, self.high = part, key, name, low, high
        self.start, self.mask, self.bits = part.start, (1 << part.bits) - 1, part.bits
        self.is_signed = part.entry.kind in SIGNED

    def number(self, whole):
        """The number that the part has in the number of a frame."""
        number = whole >> self.start & self.mask
        return number - (1 << self.bits) if self.is_signed and number >> self.bits - 1 else number

    def is_broken(self, number):
        return self.low is not None and number < self.low or self.high is not None and number > self.high


class PlannedNode:
    """What is planned for a node.

    writes     the writes of its boot in their order: entry and bytes each
    identity   the numbers that have to be read at its boot, by entry
    heartbeat  the microseconds between two heartbeats, 0 for none; `at_first` those before its boot writes them
    on_error   what it does at a communication error, as 1029h:01 has it
    window     the microseconds behind SYNC within which its PDOs have to come, 0 for none
    is_controller  whether the manager runs in it: its heartbeat is the manager's, and nobody boots it
    """

    def __init__(self, number, node, lines):
        self.number, self.node = number, node
        self.writes = [((index, sub), data) for index, sub, data in concise.writes_of(concise.bytes_of(lines))]
        self.identity = {key: self._expected(key) for key in IDENTITY}
        self.heartbeat = 1000 * (node.number_at(*HEARTBEAT_TIME, 0x06) or 0)
        entry = node.device.entries.get(HEARTBEAT_TIME)
        at_first = int.from_bytes(values.default_of(entry, number), "little") if entry and entry.kind == 0x06 else 0
        self.at_first = 1000 * at_first
        self.window = node.number_at(*WINDOW, 0x07) or 0
        self.on_error = node.number_at(*ON_ERROR, 0x05) or 0
        self.counts_syncs = bool(node.number_at(*COUNTER, 0x05))
        self.is_controller = False

    def run_manager(self, heartbeat):
        """The manager runs in it, and sends a heartbeat each so many microseconds."""
        self.is_controller, self.heartbeat, self.at_first = True, heartbeat, heartbeat

    def _expected(self, key):
        entry = self.node.device.entries.get(key)
        if not entry or not entry.is_of_identity():
            return 0
        return int.from_bytes(values.default_of(entry, self.number), "little")


class Plan:
    """What a session that was asked `Evidence.QUERIES` plans.

    line       the line of the script up to which it is that of, None for all of it
    wiring     its nodes and PDOs
    nodes      what is planned for each node, by number
    frames     the frames of the planned run: time, key and bytes, as those of a log
    landmarks  the times of its boot-up messages and commands, by key and bytes
    sent       its frames by their keys: time and bytes each
    consumers  who misses the heartbeats of each node, and after how many microseconds, the shortest time first
    bit        the microseconds of a bit; `bus_bit` those on the bus that was recorded
    """

    def __init__(self, answered):
        self.line = None
        self.answered, self.wiring, self.evidence = answered, Wiring(answered), Evidence(answered)
        self.project, self.origins = answered.project, self.evidence.origins
        self.manager, self.sync, heartbeat, answer = self.project.manager
        self.answer_time = 1000 * answer
        self.manager_heartbeat, self.counter = 1000 * heartbeat, self.project.sync_counter
        self.bit = self.bus_bit = 1000 // self.project.bitrate
        self.nodes = {number: PlannedNode(number, node, answered.lines("cdcf", number))
                      for number, node in self.wiring.nodes.items()}
        if self.project.controller is not None:
            self.nodes[self.manager].run_manager(self.manager_heartbeat)
        self.lines = trace.of_answer(answered.lines("trace"), answered.project)
        self.frames = [(time, key_of(identifier), data.hex().upper()) for time, identifier, data in trace.frames_of(self.lines)]
        self.landmarks, self.first_sync, self.sent = {}, None, {}
        for time, key, data in self.frames:
            if is_landmark(key, data):
                self.landmarks.setdefault((key, data), []).append(time)
            elif key == keys.SYNC and self.first_sync is None:
                self.first_sync = time
            self.sent.setdefault(key, []).append((time, data))
        self.consumers = {}
        for watched, consumer, millis in matrix.consumers(self.wiring):
            self.consumers.setdefault(watched, []).append((1000 * millis, consumer))
        for each in self.consumers.values():
            each.sort()

    def times(self, key):
        """The times of the frames of a key in the planned run."""
        return [time for time, _ in self.sent.get(key, ())]

    @property
    def span(self):
        """When the planned run begins and ends."""
        return 0, max(self.project.horizon, self.frames[-1][0] if self.frames else 0)

    def duration(self, digits):
        """The microseconds that a frame with so many hexadecimal digits takes, without stuff bits."""
        return plain_bits(digits // 2) * self.bit

    def limits(self, tpdo):
        """The limits that the values of a TPDO have: those of its own entries and of those that take them."""
        found = []
        for part in tpdo.parts:
            if not part.is_dummy():
                own = [(tpdo.node, part)]
                taken = [(pdo.node, other) for pdo, other in self.wiring.targets(tpdo, part)
                         if (other.start, other.bits) == (part.start, part.bits)]
                found += [self._limit(part, node, each) for node, each in own + taken]
        return [limit for limit in found if limit.low is not None or limit.high is not None]

    def _limit(self, part, node, other):
        low, high = values.limits_of(other.entry, node)
        return Limit(other, part.key, self.evidence.node_name(node), low, high)

    # Names and places.

    def name(self, node):
        """A node in words, also one that isn't planned."""
        if node in self.project.nodes:
            return self.evidence.node_name(node)
        return "manager" if node == self.manager else f"node {node}"

    def pdo_name(self, tpdo):
        """A TPDO in words."""
        message = self.wiring.message_of(tpdo)
        return f"message {message}" if message else f"TPDO {tpdo.number} of {self.name(tpdo.node)}"

    def about(self, tpdo):
        """The part of the project that a TPDO is of."""
        message = self.wiring.message_of(tpdo)
        return ("message", message) if message else ("node", tpdo.node)

    def node_of(self, about):
        """The node that a part of the project is or is of, None for none."""
        if about[0] == "message":
            return self.project.messages[about[1]].node
        return about[1] if about[0] == "node" else None

    def who(self, about):
        """A part of the project in words."""
        if about[0] == "node":
            return self.name(about[1])
        return " ".join(map(str, about))

    def entry(self, node, key):
        """An entry in words."""
        if node in self.project.nodes:
            return self.evidence.entry_name(node, key)
        return f"{key[0]:04X}h:{key[1]:02X}"

    def real(self, node, key, data):
        """Bytes as the number of an entry that is a REAL, None where they are none of one."""
        entry = self.evidence.device(node).entries.get(key) if node in self.project.nodes else None
        is_real = entry and entry.is_modelled and data is not None and 8 * len(data) == REALS.get(entry.kind)
        return reals.text_of(entry.kind, data) if is_real else None

    def taker(self, identifier):
        """Who takes frames of an identifier though nobody sends them, in words; None for nobody."""
        taking = [pdo for node in self.wiring.nodes.values() for pdo in node.pdos(RPDO) if pdo.identifier == identifier]
        return f"RPDO {taking[0].number} of {self.name(taking[0].node)}" if taking else None

    def place(self, about):
        """FILE:LINE of the command that made a part, None where there is none."""
        command = self.origins.command(*about)
        return command.place if command else None

    def write_place(self, node, key):
        """FILE:LINE of what has an entry written."""
        if key[0] not in PDO_OBJECTS:
            return self.evidence.value_place(node, key)
        message = self.message_of(node, key[0])
        return self.place(("message", message) if message else ("node", node))

    def message_of(self, node, index):
        """The message that the PDO of an object carries, None for none."""
        return self._message_of(node, *pdo_of(index)) if index in PDO_OBJECTS else None

    def _message_of(self, node, direction, number):
        """The message that a TPDO of a node sends or that an RPDO takes, None for none."""
        if direction == TPDO:
            return self.evidence.plan.sender_of(node, number)
        taking = (name for name, planned in self.evidence.plan.messages.items()
                  if not planned.faults and planned.rpdos.get(node, (None,))[0] == number)
        return next(taking, None)


def is_landmark(key, data):
    """Whether a frame is a boot-up message or a command."""
    return key == keys.COMMAND or "701#" <= key <= "77F#" and data == keys.BOOT_UP


def milliseconds(time):
    return findings.milliseconds(time)
