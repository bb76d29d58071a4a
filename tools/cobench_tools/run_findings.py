"""What is wrong with the planned run: unexplained emergencies, nodes that aren't operational, messages not sent."""
from . import full_bus, meaning
from .findings import MOST_NOTES, Finding, milliseconds
from .planned_run import CONSUMERS, MISSED

EMERGENCY, NOT_OPERATIONAL, NEVER_SENT = "emergency", "not-operational", "never-sent"
EVENT_TYPES = 254, 255
LONGEST_FRAME = 111     # bits
SAID_BY_DIAG = "W17", "W18", "W22"


class RunFindings:
    """Makes the findings of a planned run; what follows from a boot that isn't over or failed is a note of it.

    of_boots  the findings of the boots, by node
    """

    def __init__(self, evidence, run, of_boots):
        self.evidence, self.project, self.origins, self.run = evidence, evidence.project, evidence.origins, run
        self.of_boots = {}
        for finding in of_boots:
            self.of_boots.setdefault(int(finding.words.split()[1]), finding)

    def all(self):
        """The findings that stand beside those of the boots."""
        found = self._emergencies() + self._not_operational() + self._never_sent()
        self._note_waiting()
        return found

    def _note(self, finding, place, text):
        """A note of a finding, as long as there aren't too many."""
        if len(finding.notes) < MOST_NOTES:
            finding.notes += ((place, text),)

    # Emergencies.

    def _emergencies(self):
        """Those that no event explains, one finding for each cause."""
        groups = {}
        for each in self.run.emergencies:
            if each.event is None:
                cause = each.consumer.sub if each.consumer else each.short and each.short[0].number
                groups.setdefault((each.node, each.code, cause), []).append(each)
        found = []
        for several in groups.values():
            troubled = self.of_boots.get(self._behind(several[0]))
            if troubled:
                self._note(troubled, self._emergency_place(several[0]),
                           f"so {self.evidence.node_name(several[0].node)} sends {self._emergency_text(several)}")
            else:
                found.append(self._emergency(several))
        return found

    def _behind(self, emergency):
        """The node by which an emergency came about: it isn't heard, or sends what is too short; None for none."""
        if emergency.consumer:
            return emergency.consumer.watched
        identifier = emergency.short[0].identifier if emergency.short else None
        return next((planned.message.node for planned in self.evidence.plan.messages.values()
                     if not planned.faults and planned.identifier == identifier), None)

    def _emergency(self, several):
        first = several[0]
        return Finding(self._emergency_place(first), f"{EMERGENCY} {first.node} {first.code:04X}", f"node {first.node}",
                       self.evidence.node_name(first.node), f"sends {self._emergency_text(several)}")

    def _emergency_place(self, emergency):
        """FILE:LINE of the consumer that failed, else of the node."""
        if emergency.consumer:
            return self.evidence.value_place(emergency.node, (CONSUMERS, emergency.consumer.sub))
        return self.origins.place("node", emergency.node)

    def _emergency_text(self, several):
        first = several[0]
        again = f", and {len(several) - 1} more up to {milliseconds(several[-1].time)}" if len(several) > 1 else ""
        kind = meaning.EMERGENCIES.get(first.code, "error")
        what = f"EMCY {first.code:04X}h ({kind}) at {milliseconds(first.time)}{again}"
        return f"{what}, which no event explains{self._cause(first)}"

    def _cause(self, emergency):
        """Why it was sent, in words, as far as the run shows it."""
        if emergency.short:
            rpdo, size = emergency.short
            return (f": a frame {rpdo.identifier:03X}h of {size} byte{'' if size == 1 else 's'} is too short for RPDO "
                    f"{rpdo.number}, which takes {rpdo.size}")
        return self._missing(emergency) if emergency.code == MISSED and emergency.consumer else ""

    def _missing(self, emergency):
        """Whose heartbeat a consumer missed, and why that didn't come."""
        consumer = emergency.consumer
        moment = emergency.time
        name = self._name(consumer.watched)
        text = f": {CONSUMERS:04X}h:{consumer.sub:02X} waits {consumer.time // 1000} ms for {name}"
        boot = self._boot_at(consumer.watched, moment)
        if boot:
            text += f", which isn't configured till {milliseconds(boot.end)}"
        full = full_bus.most_of(self.run.full, moment - consumer.time, moment)
        return text + (f", and the bus was {full.words()}" if full else "")

    def _name(self, node):
        if node in self.project.nodes:
            return self.evidence.node_name(node)
        return "the manager" if node == self.project.manager[0] else f"node {node}"

    def _boot_at(self, node, moment):
        """The boot of a node that goes on at a moment and is over later."""
        for boot in self.run.boots.get(node, ()):
            if boot.start <= moment and boot.end is not None and boot.end >= moment:
                return boot
        return None

    # Nodes that aren't operational.

    def _not_operational(self):
        """The nodes that were started, fell though no event explains it, and are started by nobody any more."""
        return [self._fallen(node, life) for node, life in sorted(self.run.lives.items())
                if life.has_fallen() and life.fall.event is None and node not in self.of_boots]

    def _fallen(self, node, life):
        end, started, since = map(milliseconds, (self.run.end, life.started, life.since))
        text = (f"isn't operational at the end, {end}: it was started at {started}, fell to {life.state} at {since} by EMCY "
                f"{life.fall.code:04X}h, and nothing starts it again")
        finding = Finding(self.origins.place("node", node), f"{NOT_OPERATIONAL} {node}", f"node {node}",
                          self.evidence.node_name(node), text)
        for name, planned in self._messages_of(node):
            last = self.run.sent.get(planned.identifier)
            when = f"comes last at {milliseconds(last[1])}" if last else "is never sent"
            self._note(finding, self.origins.place("message", name), f"message {name} {when}")
        return finding

    def _messages_of(self, node):
        """The clean messages that a node sends, by name."""
        return [(name, planned) for name, planned in sorted(self.evidence.plan.messages.items())
                if planned.message.node == node and not planned.faults]

    # Messages that are never sent.

    def _never_sent(self):
        """The messages of which no frame comes though their types call for one."""
        told = {line.split(" ")[2] for line in self.evidence.diagnostics if line.startswith(SAID_BY_DIAG)}
        found = []
        for node in sorted(self.project.nodes):
            for name, planned in self._messages_of(node):
                if planned.identifier in self.run.sent or name in told or not planned.message.sources:
                    continue
                if node in self.of_boots:
                    place = self.origins.place("message", name)
                    self._note(self.of_boots[node], place, f"so message {name} is never sent")
                    continue
                span = next((span for span in self.run.lives[node].spans if self._calls(planned.message, *span)), None)
                found += [self._unsent(name, planned, node, span)] if span else []
        return found

    def _calls(self, message, start, end):
        """Whether a message has to be sent while its sender is operational from one time to another."""
        kind = message.numbers[0]
        enough = end - 2 * LONGEST_FRAME * self.run.bit
        if kind in EVENT_TYPES:
            return start < enough
        syncs = sum(start < time < enough for time in self.run.syncs)
        return kind <= 240 and syncs >= max(kind, 1) + (self.project.sync_counter if message.start else 0)

    def _unsent(self, name, planned, node, span):
        start, end = span
        full = full_bus.most_of(self.run.full, start, end)
        why = f"; the bus was {full.words()}" if full else ""
        text = (f"is never sent as {planned.identifier:03X}h, though {self.evidence.node_name(node)} is operational "
                f"from {milliseconds(start)} to {milliseconds(end)}{why}")
        who = f"message {name}"
        return Finding(self.origins.place("message", name), f"{NEVER_SENT} {name}", who, who, text)

    # A network that isn't started.

    def _note_waiting(self):
        """Where a mandatory node isn't configured, the network isn't started, and others wait."""
        missing = [finding for node, finding in self.of_boots.items() if node in self.project.mandatory]
        waiting = [node for node, each in sorted(self.run.boots.items())
                   if node in self.project.nodes and each[-1].is_configured()]
        if missing and waiting and not self.run.is_started:
            more = f" and {len(waiting) - 4} more" if len(waiting) > 4 else ""
            names = ", ".join(map(self._name, waiting[:4])) + more
            self._note(missing[0], missing[0].place, f"it is mandatory, so the network isn't started; in wait: {names}")


def why_not_over(run, node, boot):
    """Why the boot of a node isn't over at the horizon, in words, or why it sent no boot-up message."""
    life, start = run.lives[node], boot.start if boot else 0
    if life.switched_off is not None:
        return f"; event {life.switched_off} has switched it off"
    full = full_bus.most_of(run.full, start, run.end)
    if full:
        return f"; the bus was {full.words()}"
    return "; the horizon is too short for it" if boot else ""
