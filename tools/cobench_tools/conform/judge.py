"""Has the followers take the frames of a log, each those of its identifier."""
from ..logs.rows import key_of
from ..plan import LEAST_IDENTIFIER
from ..trace import has_stuff_bits
from ..wiring import is_restricted
from . import consequences, emergencies, keys
from .absence import Absences
from .besides import Besides
from .bus import Bus
from .causes import Spot
from .controller import Controller
from .expected import Expected
from .gaps import Gaps
from .manager import Manager
from .node import Node
from .pdo import Shared
from .startup import Places, Startup
from .strays import Strays
from .sync import Sync
from .synced_pdo import follower
from .time_stamp import TimeStamp
from .unfinished import Unfinished

RESTRICTED = [is_restricted(identifier) for identifier in range(0x800)]
ALL_NODES, COMMUNICATION = 0, 0x81


def follower_of(judge, planned):
    """What follows a node."""
    return (Controller if planned.is_controller else Node)(judge, planned)


def let_pass(time, data, number):
    """A frame that isn't judged: TIME, LSS, SDO of nobody's node."""


class Handlers(dict):
    """What takes the frames of each key; for one that comes unplanned it is made."""

    def __init__(self, judge):
        super().__init__()
        self.judge = judge

    def __missing__(self, key):
        found = self[key] = self.judge.unplanned(key)
        return found


class Judge:
    """What is recorded beside what is planned.

    causes   what isn't as planned
    nodes    the planned nodes, by number
    manager  the manager: the controller, where it runs in a node of the network, which is one of the nodes
    is_of_plan  whether it is the planned run that is judged
    begin, end, last_line  when the log begins and ends, and its last line
    opening  the key and the bytes of its first frame
    startup  how far the machine is with its start
    absences what has to come by itself
    """

    def __init__(self, plan, tolerance, causes, window=None, is_exact=False):
        self.plan, self.tolerance, self.causes, self.window, self.is_exact = plan, tolerance, causes, window, is_exact
        self.is_of_plan = causes.alignment is None
        self.begin = self.end = self.opening = None
        self.last_line, self.active_since, self.is_power_on = 0, None, None
        self.bus = Bus(plan.bit if self.is_of_plan else plan.bus_bit, tolerance, has_stuff_bits(plan.project))
        self.sync, self.time_stamp = Sync(self), TimeStamp(self)
        self.startup, self.places = Startup(plan), Places()
        self.nodes = {number: follower_of(self, planned) for number, planned in sorted(plan.nodes.items())}
        self.controller, self.strays = self.nodes.get(plan.manager), Strays(self)
        self.manager = self.controller or Manager(self)
        self.handlers, self.besides = Handlers(self), Besides(self)
        self._connect()
        self.bus.load.planned = frozenset(self.handlers)
        self.gaps, self.absences = Gaps(self), Absences(self)

    def _connect(self):
        """Gives each key its follower."""
        handlers = self.handlers
        handlers[keys.COMMAND], handlers[keys.SYNC] = self.command, self.sync.take
        handlers[keys.heartbeat(self.plan.manager)] = self.manager.heartbeat.take
        if self.plan.project.time:
            handlers[keys.TIME] = self.time_stamp.take
        for number, node in self.nodes.items():
            handlers[keys.heartbeat(number)] = node.heartbeat.take
            handlers[keys.emergency(number)] = self._emergency_of(node)
            handlers[keys.answer(number)] = node.talk.answer
            handlers[keys.request(number)] = node.talk.request
        shared = {}
        for tpdo in self.plan.wiring.tpdos:
            shared.setdefault(tpdo.identifier, []).append(follower(self, self.nodes[tpdo.node], tpdo))
        for identifier, pdos in shared.items():
            handlers[key_of(identifier)] = pdos[0].take if len(pdos) == 1 else Shared(pdos).take
            for pdo in pdos if len(pdos) == 1 else ():
                pdo.node.add_stream(pdo)
                if self.causes.alignment and self.plan.sent.get(pdo.key):
                    handlers[pdo.key] = Expected(self, pdo, self.plan.sent[pdo.key], self.is_exact).take

    def take(self, block):
        """Takes the frames of a block."""
        self.besides.take(block.aside)
        if not block.rows:
            self.bus.take(block)
            return
        if self.begin is None:
            self.begin, *self.opening = block.rows[0]
            self.startup.go_on(self.begin)
        self.bus.take(block)
        self.places.take(block)
        self.last_line = block.numbers[-1]
        handlers = self.handlers
        for part in self.gaps.parts(block):
            for number, (time, key, data) in zip(part.numbers, part.rows):
                handlers[key](time, data, number)
        self.end = block.rows[-1][0]
        self.startup.go_on(self.end)
        self.sync.keep()

    def begin_anew(self, time):
        """What was recorded before a time says nothing of what comes: something is left out, or the clock jumped."""
        self.causes.jump()
        self.sync.pause(time)
        self.time_stamp.forget(time)
        self.manager.heartbeat.forget(time)
        for node in self.nodes.values():
            node.pause(time)

    def spot(self, time):
        """A time, and the line of the first frame from it on."""
        return self.places.spot(time, self.bus.blocks)

    def whole_since(self):
        """From when all that is planned has to be there, after how long at the soonest; where that isn't known, why."""
        missing = sum(node.first is None for node in self.nodes.values())
        since, after = self.startup.since(missing, missing == len(self.nodes))
        return since, after, "" if since is not None else "the start of the machine isn't over"

    def has_all_boots(self):
        """Whether the log has the start of the machine: it begins with a boot-up message, and so does each node, as planned.

        Where they boot in another order than planned, others may have booted before the log.
        """
        heard = [node for node in self.nodes.values() if node.first is not None and node is not self.controller]
        has_each = all(node.first_boot and node.first_boot.time <= node.first.time for node in heard)
        return bool(self.is_power_on) and has_each and not self.startup.is_reordered

    def may_not_be_started(self):
        """Whether a mandatory node isn't there, and nothing shows that the network was started without it."""
        project, nodes = self.plan.project, self.nodes.values()
        is_away = any(node.first is None for node in nodes if node.number in project.mandatory and node is not self.controller)
        return project.version >= 2 and is_away and not any(node.was_operational() for node in nodes)

    def tolerate(self):
        """Times may be off by more than before: what each follower allows is worked out anew."""
        self.sync.tolerate()
        self.time_stamp.tolerate()
        self.manager.heartbeat.set_period(self.manager.heartbeat.period)
        for node in self.nodes.values():
            for stream in node.streams:
                stream.tolerate()

    def finish(self):
        """The log is over."""
        self.sync.finish(self.end)
        self.time_stamp.finish(self.end)
        for node in self.nodes.values():
            node.finish(self.end)
        if self.controller is None:
            self.manager.heartbeat.finish(self.end)
        Unfinished(self).finish()
        if self.causes.alignment:
            self.absences.finish()
        consequences.fold(self)
        self.strays.finish()

    # Commands and landmarks.

    def command(self, time, data, number):
        """A command of the network management came."""
        if len(data) != 4:
            return
        self.landmark(keys.COMMAND, data, time)
        service, target = bytes.fromhex(data)
        for node in self.nodes.values() if target == ALL_NODES else filter(None, [self.nodes.get(target)]):
            node.command(service, time, number)

    def landmark(self, key, data, time):
        """A boot-up message or a command came."""
        if self.is_power_on is None and key != keys.COMMAND:
            self.is_power_on = self.active_since is None
        self.startup.landmark(key, data, time)
        self.causes.landmark(key, data, time, time if self.active_since is None else self.active_since,
                             self.begin if self.is_power_on else None)

    def hear(self, time):
        """A node was heard for the first time."""
        if self.active_since is None:
            self.active_since = time

    def first_sync(self, time, number):
        """The first SYNC came: so its sender is there."""
        if self.controller and self.controller.first is None:
            self.controller.first = Spot(time, number)
        if self.causes.alignment:
            self.causes.alignment.take_sync(time, self.plan.first_sync)

    # Emergencies.

    def _emergency_of(self, node):
        def take(time, data, number):
            message = bytes.fromhex(data)
            code = int.from_bytes(message[:2], "little")
            node.hear(time, number)
            node.tell("emcy", [node.number, f"{code:04X}" if len(message) == 8 else "length"], emergencies.text_of(message), time, number)
            if code >> 8 == COMMUNICATION:
                node.trip(time)
        return take

    # What isn't planned.

    def unplanned(self, key):
        """What takes the frames of a key that the plan doesn't have."""
        identifier = int(key[:3], 16)
        node, service = identifier & 0x7F, identifier & 0x780
        if node and node != self.plan.manager and service in (keys.HEARTBEATS, keys.ANSWERS, keys.EMERGENCIES):
            return self._stranger(node)
        if identifier >= LEAST_IDENTIFIER and not RESTRICTED[identifier]:
            return self.strays.taker(identifier)
        return let_pass

    def _stranger(self, node):
        def take(time, data, number):
            self.causes.tell("unplanned-node", [node], ("node", node), "no node of the plan has this number; "
                             + ("it boots" if data == "00" else "it is heard"), time, number)
        return take
