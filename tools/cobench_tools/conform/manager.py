"""Follows what the manager sends by itself: its heartbeat."""
from typing import Dict

from .heartbeat import Heartbeat
from .pdo import Pdo


class Manager:
    """The manager as the follower of its heartbeats sees it, where it runs in no node of the network."""

    pdos: Dict[int, Pdo] = {}

    def __init__(self, judge):
        self.judge, self.number, self.about = judge, judge.plan.manager, ("manager",)
        self.heartbeat = Heartbeat(judge, self, judge.plan.manager_heartbeat)

    def tell(self, code, subject, text, time, line, notes=()):
        self.judge.causes.tell(code, subject, self.about, text, time, line, notes)

    def boot_up(self, time, line):
        """It was switched on; its heartbeat has a beat of its own, which its period doesn't begin with."""
        self.heartbeat.forget(time)

    def is_booting(self):
        """Nobody boots it."""
        return False

    def has_changed(self, time):
        """Its state isn't followed."""
        return False

    def is_doubled(self, what, time, line):
        """That two are there isn't judged."""

    def hear(self, time, line):
        """It was heard."""

    def tells_state(self, state, time, line):
        """Its state isn't judged."""

    def was_silent(self, stream, time, line):
        return False
