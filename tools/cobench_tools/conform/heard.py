"""When the nodes of a recording were heard, and the states that this tells.

A node isn't heard before its first frame, and once nothing came of it for longer than its heartbeat may take. A command
is a state of the nodes that are heard alone.
"""
from ..logs.rows import key_of
from ..picture import BY_BYTE, BY_SERVICE
from . import keys
from .tolerance import NEVER

NOT_HEARD, UNKNOWN = "not heard", "unknown"
LIFE_GUARD = "3081"


class Heard:
    """What the frames of a log tell of the nodes of a plan.

    spans  by node the spans in which it is heard: of each its first and its last frame, and the states that were told in it
    """

    def __init__(self, plan, tolerance):
        self.plan, self.senders = plan, {}
        self.allowed = {number: self._allowed(node.heartbeat, tolerance) for number, node in plan.nodes.items()}
        self.spans = {number: [] for number in plan.nodes}
        for number in plan.nodes:
            self.senders.update(dict.fromkeys((keys.heartbeat(number), keys.emergency(number), keys.answer(number)), number))
        for tpdo in plan.wiring.tpdos:
            self.senders.setdefault(key_of(tpdo.identifier), tpdo.node)

    @staticmethod
    def _allowed(period, tolerance):
        """How long nothing may come of a node: without a heartbeat for ever."""
        return period + tolerance.of(period) if period else NEVER

    def take(self, rows):
        """Takes the frames of a block."""
        senders, spans, allowed = self.senders, self.spans, self.allowed
        for time, key, data in rows:
            node = senders.get(key)
            if node is None:
                if key == keys.COMMAND and len(data) == 4:
                    self._command(time, data)
                continue
            of_node = spans[node]
            if of_node and time - of_node[-1][1] <= allowed[node]:
                of_node[-1][1] = time
            else:
                of_node.append([time, time, []])
            if key[0] == "7":
                self._tells(of_node[-1][2], time, data)
            elif data[:4] == LIFE_GUARD and key[0] == "0":
                of_node[-1][2].append((time, "pre-operational", False))

    @staticmethod
    def _tells(told, time, data):
        """A heartbeat or a boot-up message tells a state."""
        state = BY_BYTE.get(int(data or keys.BOOT_UP, 16) & 0x7F, "pre-operational")
        if data == keys.BOOT_UP or not told or told[-1][1] != state:
            told.append((time, state, data != keys.BOOT_UP))

    def _command(self, time, data):
        """A command tells a state of the nodes that are heard."""
        state, target = BY_SERVICE.get(int(data[:2], 16)), int(data[2:], 16)
        for node in [target] if target else self.spans:
            of_node = self.spans.get(node)
            if state and of_node and time - of_node[-1][1] <= self.allowed[node]:
                of_node[-1][2].append((time, state, False))

    def states(self, node, end):
        """The states of a node: from which time on it has which, the first one from the beginning on."""
        found = [(0, NOT_HEARD)]
        for first, last, told in self.spans.get(node, ()):
            known = bool(told) and told[0][2]           # a heartbeat tells the state that it had before, too
            if not told or told[0][0] > first or known:
                found.append((first, told[0][1] if known else UNKNOWN))
            found += [(time, state) for time, state, _ in told if not known or time > told[0][0]]
            if last + self.allowed.get(node, NEVER) < end:
                found.append((last + self.allowed[node], NOT_HEARD))
        return found
