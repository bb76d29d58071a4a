"""Follows a node: its boots, its state, and whether it is there at all."""
from ..wiring import TPDO, pdo_of
from . import keys
from .boot import Boot
from .causes import Spot
from .heartbeat import STATE_BYTES, Heartbeat, state_name
from .plan import milliseconds
from .presence import OPERATIONAL, Presence
from .sdo import Talk
from .twins import ENOUGH, SOON, Twins

STOPPED, PRE_OPERATIONAL = 4, 127
BY_SERVICE = {1: OPERATIONAL, 2: STOPPED, 128: PRE_OPERATIONAL}
RESETS = 129, 130

# What 1029h:01 says that a node does at a communication error; 1 is no change.
BY_ERROR = {0: PRE_OPERATIONAL, 2: STOPPED}


class Node(Presence):
    """A planned node as it was recorded.

    state      what it was told to be in, None where that isn't known; `since` is when it was told
    is_sure    whether a command or a boot-up message told it
    possible   the states of which it has one after a communication error, None where that isn't known
    first_boot   the time and line of its first boot-up message
    first_state  the time and the digits of its first heartbeat or boot-up message
    last_boot    the time and line of its last boot-up message
    reset_at     the time and line of the command that reset it, None where it has booted since
    back         since when it is there again after nothing was recorded, None for no such time
    is_started   whether a command started it since it booted
    may_have_booted  whether it may have been reset unseen
    heard      the time and line at which something else than its cyclic frames was heard last, None for nothing so far
    streams    its heartbeat and its TPDOs, each with when it came last
    """

    def __init__(self, judge, planned):
        self.judge, self.planned, self.number = judge, planned, planned.number
        self.about = "node", self.number
        self.state, self.since, self.is_sure, self.possible = None, None, False, None
        self.heard, self.first, self.first_state, self.is_reset = None, None, None, False
        self.first_boot = self.last_boot = self.reset_at = self.back = None
        self.may_have_booted = self.was_tripped = self.is_started = False
        self.heartbeat = Heartbeat(judge, self, planned.heartbeat)
        self.streams, self.pdos = [self.heartbeat], {}
        self.boot = Boot(judge, self)
        self.talk, self.twins = Talk(self.boot, self), Twins(self)

    def tell(self, code, subject, text, time, line, notes=(), about=None):
        """Something of it isn't as planned."""
        self.judge.causes.tell(code, subject, about or self.about, text, time, line, notes)

    def hear(self, time, line):
        """It was heard."""
        if self.first is None:
            self.first = Spot(time, line)
            self.judge.hear(time)
        self.heard = Spot(time, line)

    def add_stream(self, pdo):
        """A TPDO of it is followed."""
        self.streams.append(pdo)
        self.pdos[pdo.tpdo.number] = pdo

    def rest_pdo(self, index, time):
        """An object of a PDO was written: what comes next is the first one."""
        direction, number = pdo_of(index)
        if direction == TPDO and number in self.pdos:
            self.pdos[number].forget(time)

    def has_changed(self, time):
        """Whether its state has changed since a time."""
        return self.since is not None and self.since > time

    def is_doubled(self, what, time, line, weight=1):
        """There is a sign that two devices have its number."""
        self.twins.sign(what, time, line, weight)

    # States.

    def set_state(self, state, time, is_sure):
        self.state, self.since, self.is_sure, self.possible = state, time, is_sure, None
        self.heartbeat.expected = STATE_BYTES.get(state, "")
        if state != PRE_OPERATIONAL:
            self.heartbeat.may_be(0)

    def boot_up(self, time, line):
        """Its boot-up message came."""
        self.marks_start(time)
        period, is_expected = self.planned.at_first, self.may_boot()
        self.first_state = self.first_state or (time, keys.BOOT_UP)
        self.first_boot = self.first_boot or Spot(time, line)
        if is_expected:
            self.set_state(PRE_OPERATIONAL, time, True)
        else:
            self._boots_again(time, line)
            period = period if period == self.planned.heartbeat else 0
        self.is_reset, self.may_have_booted, self.reset_at, self.is_started = False, False, None, False
        self.hear(time, line)
        self.last_boot = Spot(time, line)
        self.boot.begin(is_expected)
        self.talk.forget()
        self.heartbeat.begin(period, time, line)
        self._rest()

    def marks_start(self, time):
        """Its boot-up message is one of the start of the machine."""
        self.judge.landmark(keys.heartbeat(self.number), keys.BOOT_UP, time)
        self.judge.startup.activity(time)

    def may_boot(self):
        """Whether it may boot now: nothing of it was there before, or it was reset."""
        return self.first is None or self.is_reset or self.may_have_booted

    def _boots_again(self, time, line):
        """It boots though nothing reset it."""
        silent = time - max(self.heard.time, *(stream.last or 0 for stream in self.streams))
        said = f", {milliseconds(silent)} after it was heard last" if any(each.is_overdue(time) for each in self.streams) else ""
        if self.judge.is_of_plan:
            self._stays_away(time)
        if self.last_boot and time - self.last_boot.time < SOON:
            self.is_doubled(f"it boots {milliseconds(time - self.last_boot.time)} after it has booted, and no command reset it", time, line,
                            ENOUGH)
        self.set_state(None, time, False)
        self.tell("boots-again", [self.number], f"it boots again, and no command reset it{said}", time, line)

    def _stays_away(self, time):
        """In the planned run: what would be told if it ended here, before the node is there again."""
        overdue = [stream for stream in self.streams if stream.is_overdue(time)]
        for stream in overdue:
            stream.tell_over(time)
        if overdue:
            self.tell("silent", [self.number], "", *self.last_heard())

    def command(self, service, time, line):
        """It was told to be in a state, or to reset."""
        self.is_started |= service == 1
        if service in RESETS:
            self.is_reset, self.reset_at = True, Spot(time, line)
            self.set_state(None, time, False)
            self._rest()
            for stream in self.streams:
                stream.forget()
        elif service in BY_SERVICE and self.state != BY_SERVICE[service]:
            was_known = self.state is not None
            self.set_state(BY_SERVICE[service], time, True)
            self._rest()
            if service == 1:
                self.boot.start(time, line)
                self._start(time, line, was_known)
        elif service == 1:
            self.boot.start(time, line)

    def _start(self, time, line, was_known):
        for stream in self.streams[1:] if self.first is not None and was_known else ():
            stream.start(time, line)

    def _rest(self):
        """Its TPDOs are counted anew."""
        for stream in self.streams[1:]:
            stream.forget()

    def trip(self, time):
        """A communication error may have changed its state, as 1029h has it."""
        possible = {self.state, BY_ERROR.get(self.planned.on_error, self.state)}
        self.set_state(None, time, False)
        self.was_tripped = True
        self.possible = None if None in possible else possible
        self._rest()

    def tells_state(self, state, time, line):
        """A heartbeat tells its state; a node that is found pre-operational may not be configured yet."""
        if state != PRE_OPERATIONAL or not self.first_state:
            self.heartbeat.may_be(self.planned.at_first if state == PRE_OPERATIONAL else 0)
        self.first_state = self.first_state or (time, f"{state:02X}")
        self.may_have_booted = False
        if state == self.state:
            return
        waited = self.since is not None and self._may_have_waited(time, line)
        if self.state is None and self.possible and state not in self.possible:
            names = " or ".join(map(state_name, sorted(self.possible)))
            self.tell("state", [self.number], f"it is {state_name(state)}, and by its communication error may be {names}", time, line)
        elif self.state is None:
            if not waited:
                self.set_state(state, time, False)
        elif state == OPERATIONAL and self._was_started_unseen():
            self.set_state(state, time, False)
        elif not waited:
            self.tell("state", [self.number], f"it is {state_name(state)}, and "
                      f"{'was told to be' if self.is_sure else 'was'} {state_name(self.state)}", time, line)

    def _was_started_unseen(self):
        """Whether its state was known of one heartbeat alone, the first of the log, which may have waited before that began."""
        is_first = self.first_state is not None and self.since == self.first_state[0] == self.heartbeat.before
        return (is_first and not self.is_sure and self.state == PRE_OPERATIONAL
                and self.since <= self.judge.begin + (self.heartbeat.period or 0))

    def _may_have_waited(self, time, line):
        """Whether what comes now can have begun to wait before its state changed."""
        slack = 2 * self.judge.tolerance.jitter
        if time - self.since <= slack:
            return True
        since = self.judge.bus.waited_since(line, self.since)
        return since is not None and since <= self.since + slack

    def sends(self, pdo, time, line):
        """A PDO came of it that wasn't counted before."""
        self.may_have_booted = False
        if self.is_sure and self.state in (STOPPED, PRE_OPERATIONAL) and not self._may_have_waited(time, line):
            self.tell("state", [self.number], f"it sends {pdo}, and was told to be {state_name(self.state)}", time, line)
            self.is_sure = False
