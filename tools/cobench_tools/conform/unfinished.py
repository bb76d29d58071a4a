"""Boots that aren't over at the end of a log, and those that never began."""
from . import keys
from .plan import milliseconds
from .startup import LONG

# Within these microseconds two times are the same.
SAME = 50


class Unfinished:
    """What is left to be done for a node at the end of a log."""

    def __init__(self, judge):
        self.judge, self.plan = judge, judge.plan

    def finish(self):
        heard = [node for node in self.judge.nodes.values() if node.first is not None]
        unbooted = self._unbooted(heard)
        for node in heard:
            if node in unbooted:
                node.tell("never-boots", [node.number], "it is heard, and no boot-up message of it is there", *node.first)
            elif node.reset_at and self._is_long(node.reset_at):
                node.tell("never-boots", [node.number], f"it is reset, and no boot-up message of it comes in {self._left(node.reset_at)}, "
                          "to the end", *node.reset_at)
            elif node.last_boot and self._is_awaited(node):
                self._stops(node)

    def _unbooted(self, heard):
        """The nodes of which a boot-up message is missing: the log begins with the planned run, and nothing says that one was up before.
        That of the controller may come behind its PDOs."""
        unbooted = [node for node in heard if node.first_boot is None and node is not self.judge.controller]
        return unbooted if self._begins_with_the_run() and all(map(self._comes_as_planned, unbooted)) else []

    def _begins_with_the_run(self):
        """Whether the first frame of the log is that of the planned run, and nodes boot in its order."""
        judge, alignment = self.judge, self.judge.causes.alignment
        if not (alignment and alignment.offsets) or judge.startup.is_reordered:
            return False
        begin, *opening = self.plan.frames[0]
        return judge.opening == opening and abs(judge.begin - alignment.offset - begin) <= SAME

    def _comes_as_planned(self, node):
        """Whether a node is heard first when it is heard behind its boot-up message in the planned run, and is started in the log."""
        beats, answers = keys.heartbeat(node.number), keys.answer(node.number)
        if (beats, keys.BOOT_UP) not in self.plan.landmarks or node.was_operational() and not node.is_started:
            return False
        sent = [(time, key, data) for key in [beats, answers] + [pdo.key for pdo in node.pdos.values()]
                for time, data in self.plan.sent.get(key, ())]
        planned = min((time for time, *frame in sent if frame != [beats, keys.BOOT_UP]), default=None)
        since = node.first.time - self.judge.causes.alignment.offset
        return planned is not None and abs(since - planned) <= 2 * self.judge.tolerance.jitter

    def _left(self, spot):
        return milliseconds(self.judge.end - spot.time)

    def _is_long(self, spot):
        """Whether the log goes on for long behind a place."""
        return self.judge.end - spot.time > LONG

    def _is_awaited(self, node):
        """Whether the boot of a node has to go on: the planned run starts it, the manager is there, and nobody boots any more.
        The controller may start itself."""
        number, startup, since = node.number, self.judge.startup, node.last_boot.time
        is_planned = any((keys.COMMAND, f"01{target:02X}") in self.plan.landmarks for target in (number, 0))
        heard = [self.judge.sync.last, self.judge.manager.heartbeat.last]
        is_there = any(time is not None and time > since for time in heard) or not (self.plan.sync or self.plan.manager_heartbeat)
        return is_planned and node is not self.judge.controller and is_there and self.judge.end - max(startup.latest, since) > LONG

    def _stops(self, node):
        """Reports the boot of a node behind which nothing comes."""
        boot, writes = node.boot, len(node.boot.writes)
        if boot.place is None or boot.started or node.is_started or node.talk.is_left:
            return
        left = self._left(node.last_boot)
        if boot.place == 0 and writes:
            text = f"it boots, and nothing is written in {left}, to the end; its boot has {writes} writes"
        elif boot.place < writes:
            text = f"its boot stops behind {boot.place} of {writes} writes: no other comes in {left}, to the end"
        else:
            text = f"it boots, and isn't started in {left}, to the end"
        node.tell("boot-stops", [node.number], text, *node.last_boot)
