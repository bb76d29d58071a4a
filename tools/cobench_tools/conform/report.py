"""What `conform` tells of a log: its causes as findings, and how many frames, how full the bus, how SYNC came."""
from .. import safe_text, tool
from ..findings import ERROR, WARNING, Finding
from ..logs.rows import NAMES
from ..report import Report, counted, json_of
from .causes import MOST
from .load import WINDOW
from .plan import milliseconds

MOST_NOTES = 4
MOST_NAMES, MOST_REASONS = 6, 4
NO_ERROR = "emcy", "0000"
WARNINGS = "error-frame", "remote-frame"


def seconds(time):
    """Microseconds as seconds."""
    return f"{time / 1e6:,.6f} s"


class ConformReport(Report):
    """The findings of a log beside its script.

    zero        the time of the log from which times are told
    own_errors  how many errors the script itself has, but for those that were accepted
    """

    def __init__(self, plan, judge, log):
        self.plan, self.judge, self.log, self.own_errors = plan, judge, log, 0
        self.zero = log.start
        self.causes = judge.causes.all()
        super().__init__(plan.answered, [self.finding(cause) for cause in self.causes])

    def judged(self):
        """The report once some findings were accepted."""
        self.open = [finding for finding in self.findings if not finding.accepted]
        return self

    def finding(self, cause):
        """The finding of a cause."""
        place = tool.Place(self.log.path, cause.first.line)
        about = " ".join(map(str, cause.about))
        finding = Finding(place, " ".join(cause.key), about, cause.who if cause.about[0] != "identifiers" else "",
                          f"{cause.text} ({self.when(cause)})", self.notes(cause))
        is_warning = cause.code in WARNINGS or (cause.code, cause.subject[-1]) == NO_ERROR
        finding.severity = WARNING if is_warning else ERROR
        return finding

    def when(self, cause):
        """When a cause was there, and how often."""
        if not self.log.has_times:
            return f"{cause.count:,} times, the last one in line {cause.last.line}" if cause.count > 1 else "once"
        first = seconds(cause.first.time - self.zero)
        if cause.count == 1:
            return f"at {first}"
        return f"{cause.count:,} times, from {first} to {seconds(cause.last.time - self.zero)} in line {cause.last.line}"

    def notes(self, cause):
        """The further lines of a cause: of the log, and that of the script which plans it."""
        notes = [(where if isinstance(where, tool.Place) else tool.Place(self.log.path, where), words)
                 for where, words in cause.notes]
        place = self.plan.place(cause.about)
        if place and not any(words == PLANNED for _, words in notes):
            notes.append((place, PLANNED))
        return notes[:MOST_NOTES]

    # As text.

    def summary(self):
        accepted = len(self.findings) - len(self.open)
        words = [counted(self.count(ERROR), "error"), counted(self.count(WARNING), "warning")]
        words += [f"{accepted} accepted"] if accepted else []
        lines = [f"{', '.join(words)}; {self.frames_text()}{self.aligned_text()}", self.bus_text()]
        if self.judge.absences.left:
            lines.append(self.left_text())
        if self.judge.causes.too_many:
            lines.append(f"more causes than {MOST:,} are not told, {self.judge.causes.too_many:,} times")
        if self.plan.line:
            lines.append(f"the plan is the network at line {self.plan.line} of the script, a trace; edits stand behind it")
        if self.own_errors:
            lines.append(f"the script itself has {counted(self.own_errors, 'error')}, which cobtool check tells")
        return "\n".join(lines)

    def left_text(self):
        """What wasn't judged, and why; what has one reason stands together."""
        reasons = {}
        for name, why in self.judge.absences.left:
            reasons.setdefault(why, []).append(name)
        texts = []
        for why, names in list(reasons.items())[:MOST_REASONS]:
            more = f" and {len(names) - MOST_NAMES} more" if len(names) > MOST_NAMES else ""
            texts.append(f"{', '.join(names[:MOST_NAMES])}{more} ({why})")
        rest = sum(map(len, list(reasons.values())[MOST_REASONS:]))
        return "not judged: " + "; ".join(texts + ([f"{rest} more"] if rest else []))

    def frames_text(self):
        """How many frames the log has, and what was set aside."""
        aside = [f"{number:,} {NAMES[kind][number > 1]}" for kind, number in sorted(self.log.aside.items())]
        behind = f"; set aside: {', '.join(aside)}" if aside else ""
        span = f" in {seconds(self.judge.end - self.judge.begin)}" if self.log.has_times else ""
        return f"{self.log.frames:,} frames{span}{behind}"

    def aligned_text(self):
        alignment = self.judge.causes.alignment
        if not self.log.has_times:
            return ""
        if alignment.offset is None:
            return "; it lies nowhere on the planned run"
        what = "a boot-up message or command" if alignment.is_known() else "SYNC alone"
        return f"; the planned run begins at {seconds(alignment.offset - self.zero)} of it, by {what}"

    def bus_text(self):
        """How full the bus was, how SYNC came, and what was allowed."""
        if not self.log.has_times:
            return "the log has no times: neither the load nor anything else that needs them is judged"
        load = self.judge.bus.load
        shares = load.shares(load.bits)
        peak = max(range(len(shares)), key=shares.__getitem__)
        texts = [self.load_text(),
                 f"its peak in {WINDOW // 1000} ms {shares[peak]:.1f} %, from {seconds(peak * WINDOW + load.start - self.zero)} on"]
        sync = self.judge.sync
        if sync.period and sync.count > 1:
            texts.append(f"SYNC each {milliseconds(sync.shortest)} to {milliseconds(sync.longest)}")
        return "; ".join(texts + [self.judge.tolerance.words()])

    def load_text(self):
        """How full the bus was: in version 3 with stuff bits, as far as they are known."""
        load = self.judge.bus.load
        if load.is_exact and load.bits == load.most:
            return f"load {load.total(load.bits):.1f} % with stuff bits{self.whose_text()}"
        return f"load {load.total(load.bits):.1f} %{self.whose_text()}, with stuff bits at most {load.total(load.most):.1f} %"

    def whose_text(self):
        """Whose frames made the load, where it isn't the network's alone."""
        load = self.judge.bus.load
        parts = [f"{share:.1f} % {words}" for words, share in load.whose().items()] if load.of else []
        return f" ({', '.join(parts)})" if parts else ""

    # For programs.

    def as_json(self, **more):
        load, sync = self.judge.bus.load, self.judge.sync
        findings = [{**json_of(finding), "count": cause.count, "first_us": cause.first.time - self.zero,
                     "last_us": cause.last.time - self.zero, "last_line": cause.last.line}
                    for finding, cause in zip(self.findings, self.causes)]
        whole = {"script": self.answered.path, "log": self.log.path, "format": self.log.format.name, "status": self.status,
                 "errors": self.count(ERROR), "warnings": self.count(WARNING), "findings": findings,
                 "script_errors": self.own_errors, "frames": self.log.frames, "duration_us": self.judge.end - self.judge.begin,
                 "set_aside": dict(self.log.aside), "run_begins_us": self.run_begins(),
                 "sync_us": [sync.shortest, sync.longest] if sync.period and sync.count > 1 else None,
                 "load": {"window_us": WINDOW, "percent": rounded(load.shares(load.bits)),
                          "percent_stuffed": rounded(load.shares(load.most)),
                          "whose": {words: round(share, 2) for words, share in load.whose().items()}},
                 "not_judged": [{"what": name, "why": why} for name, why in self.judge.absences.left],
                 "jitter_us": self.judge.tolerance.jitter, "clock_ppm": self.judge.tolerance.clock, **more}
        return safe_text.as_json(whole)

    def run_begins(self):
        offset = self.judge.causes.alignment.offset
        return None if offset is None else offset - self.zero

    def parts(self):
        """The parts of the project that are judged, and those with findings that it hasn't."""
        project = self.answered.project
        names = ["manager", "identifiers", "bus"] + [f"node {node}" for node in sorted(project.nodes)]
        names += [f"message {name}" for name in sorted(project.messages)]
        return names + sorted({finding.part for finding in self.open} - set(names))


def rounded(shares):
    return [round(share, 2) for share in shares]


PLANNED = "planned here"
