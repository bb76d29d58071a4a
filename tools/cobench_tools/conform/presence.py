"""Whether a node is there: when it was heard last, what of it is overdue, and from when it has to be heard."""
from .causes import Spot
from .heartbeat import state_name
from .plan import milliseconds

OPERATIONAL = 5
LEAST_SILENT = 2


class Presence:
    """What a node does by itself, and what it does not; see Node for what it knows."""

    # What has to come.

    def is_booting(self):
        """Whether it was reset, or has booted, and nothing yet says when its heartbeat comes."""
        return self.is_reset or self.first_boot is not None and not self.heartbeat.period

    def awaits_pdos(self):
        """From when its PDOs have to come, after how long at the soonest; where that isn't known, why."""
        if self.state == OPERATIONAL:
            return self.since, 0, ""
        if self.state is not None:
            return None, 0, f"{self.judge.plan.name(self.number)} is {state_name(self.state)}"
        if self.back is not None:
            return self.back, 0, ""
        if self.first_boot or self.is_reset or self.was_tripped:
            return None, 0, f"the state of {self.judge.plan.name(self.number)} isn't known"
        if self.judge.may_not_be_started():
            return None, 0, "the network may not be started, as a mandatory node isn't there"
        return self.judge.whole_since()

    def was_operational(self):
        """Whether it is known to be operational, or a PDO of it shows that it was."""
        return self.state == OPERATIONAL or any(pdo.first_line is not None for pdo in self.pdos.values())

    def pause(self, time):
        """Nothing at all was recorded up to a time: what it is and does is known no more."""
        if self.first is None:
            return
        self.may_have_booted, self.back, self.reset_at = True, time, None
        self.set_state(None, time, False)
        self.boot.pause()
        self.talk.forget()
        for stream in self.streams:
            stream.forget(time)

    # Silence.

    def last_heard(self):
        """When and in which line it was heard last."""
        spots = [Spot(stream.last, stream.line) for stream in self.streams if stream.last is not None]
        return max(spots + ([self.heard] if self.heard else []), default=None)

    def was_silent(self, stream, time, line):
        """Whether others of its frames stayed away as this one did; then that is told, and all begins anew."""
        if not self._is_silent(time, line, stream):
            return False
        last = self.last_heard()
        self.tell("silent", [self.number], f"nothing of it came for {milliseconds(time - last.time)}", last.time, last.line,
                  [(line, "here it is heard again")])
        for each in self.streams:
            if each is not stream:
                each.forget(time)
        return True

    def _is_silent(self, time, line, stream=None):
        """Whether several of its frames are overdue in a line, and none of them was before it was heard last."""
        overdue = [each for each in self.streams if each.is_judged()
                   and (each is stream or each.is_overdue(time) and not self._waits(each, line))]
        if len(overdue) < LEAST_SILENT:
            return False
        last = self.last_heard()
        return all(each.due() + self._slack >= last.time or self._waits(each, last.line) for each in overdue)

    @property
    def _slack(self):
        return 2 * self.judge.tolerance.jitter

    def _waits(self, stream, line):
        """Whether a frame that is due may be waiting for the bus in a line."""
        due = stream.due() + self._slack
        since = self.judge.bus.waited_since(line, due, key=stream.key)
        return since is not None and since <= due

    def finish(self, end):
        """The log is over."""
        self.talk.finish(end)
        self.boot.finish()
        if self._is_silent(end, self.judge.last_line):
            last = self.last_heard()
            self.tell("silent", [self.number], "nothing of it comes any more", last.time, last.line)
            if not self.judge.is_of_plan:
                return
        for stream in self.streams:
            stream.finish(end)
