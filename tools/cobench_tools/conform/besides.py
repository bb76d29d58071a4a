"""What a recording has besides the frames of the network, and that isn't planned: error frames and remote frames."""
from ..logs.rows import ERROR, REMOTE
from ..wiring import COMMUNICATION, TPDO

# Bit 30 of the COB-ID of a TPDO says that no remote frame may ask for it.
NO_REMOTE = 1 << 30
GUARDED, UNSIGNED32 = 0x700, 0x07
ERROR_TEXT = "an error frame: a node has seen a fault on the bus, or wasn't understood"


class Besides:
    """Tells of error frames and remote frames."""

    def __init__(self, judge):
        self.judge = judge

    def take(self, aside):
        """Takes what a block has of them."""
        for each in aside:
            if each.kind == ERROR:
                self.judge.causes.tell("error-frame", ["bus"], ("bus",), ERROR_TEXT, each.time, each.line)
            elif each.kind == REMOTE:
                self._remote(each)

    def _remote(self, aside):
        """A frame that asks for another one."""
        number = aside.identifier
        subject, (about, what) = f"{number:03X}" if number < 0x800 else f"{number:08X}", self._asked(number)
        self.judge.causes.tell("remote-frame", [subject], about, f"a remote frame asks for {subject}h{what}", aside.time, aside.line)

    def _asked(self, number):
        """The part of the project that is asked for, and what is to be said of it."""
        tpdo = next((each for each in self.judge.plan.wiring.tpdos if each.identifier == number), None)
        if tpdo:
            value = self.judge.plan.wiring.nodes[tpdo.node].number_at(COMMUNICATION[TPDO] + tpdo.number, 1, UNSIGNED32) or 0
            return self.judge.plan.about(tpdo), ", and its COB-ID allows none" if value & NO_REMOTE else ""
        node = number - GUARDED
        if node in self.judge.plan.nodes:
            return ("node", node), ", which is node guarding, and isn't planned"
        return ("identifiers",), ""
