"""Follows the controller, the node that the manager runs in: nobody boots it, and its heartbeat is the manager's."""
from .causes import Spot
from .node import PRE_OPERATIONAL, RESETS, Node
from .presence import OPERATIONAL


class Controller(Node):
    """The controller as it was recorded.

    That its heartbeat says Operational isn't judged: it does so in the planned run whatever its state is, and a machine's may
    start itself, and reset the others alone, without a command that it takes. What it sends says nothing of when the others
    start, as it is often there before them.
    """

    def set_state(self, state, time, is_sure):
        super().set_state(state, time, False)
        self.heartbeat.expected = ""

    def hear(self, time, line):
        """It was heard."""
        self.heard = Spot(time, line)
        self.first = self.first or self.heard

    def marks_start(self, time):
        """Its boot-up message isn't one of the start that it makes."""

    def may_boot(self):
        """Its first boot-up message may come behind what it sends as the manager, and behind its own PDOs."""
        return self.first_boot is None or self.may_have_booted

    def boot_up(self, time, line):
        """Its boot-up message came; its heartbeat has a beat of its own, which doesn't begin with that."""
        super().boot_up(time, line)
        self.heartbeat.forget(time)

    def command(self, service, time, line):
        """It was told to be in a state, or to reset, which may pass it by."""
        super().command(service, time, line)
        if service in RESETS:
            self.is_reset, self.reset_at, self.may_have_booted = False, None, True

    def tells_state(self, state, time, line):
        """A heartbeat tells its state, where that isn't Operational."""
        if state != OPERATIONAL:
            super().tells_state(state, time, line)
        self.first_state = self.first_state or (time, f"{state:02X}")

    def sends(self, pdo, time, line):
        """A PDO came of it that wasn't counted before: it is operational, though no command said so."""
        if self.state in (None, PRE_OPERATIONAL) and not (self.since and self._may_have_waited(time, line)):
            self.set_state(OPERATIONAL, time, False)

    def last_heard(self):
        """When and in which line it was heard last, by SYNC too."""
        sync = self.judge.sync
        return max(filter(None, [super().last_heard(), Spot(sync.last, sync.line) if sync.last is not None else None]), default=None)
