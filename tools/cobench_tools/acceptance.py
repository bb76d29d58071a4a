"""Findings that the user has accepted, as the defects of a vendor's data sheet: by `--allow` and from a file."""
import re

from . import tool
from .findings import ERROR

ACCEPTED = """A finding is accepted by the words that say which it is: those of the line of
`diag`, as 'E02 default 5 2000 00', or the code and the subject of another, as
'refused param 3', 'failed 5', 'emergency 1 8130', 'pdo-values servo'. The first
words will do: 'E02 default 5' accepts all of that node."""

HELP = f"""{ACCEPTED} An accepted finding isn't
reported, and counts for no status. One FILE serves all commands: what is accepted
for another one is passed over."""

# Which commands find what: all that run cobench; check and export; check --files; eds; load; conform; bus.
PLAN = frozenset("refused failed unconfigured pdo-values emergency not-operational never-sent".split())
SCRIPT = frozenset("replaced no-source no-sink receive-time late-event bit-rate taken-twice real-limits sheet".split())
FILES = frozenset("edited missing stale mix".split())
SHEET = frozenset("pdo-values sheet".split())
LOAD = frozenset("late unbounded overload assumed trace".split())
LOG = frozenset("""never-boots never-seen two-devices gap boot-stops boots-again unplanned-node silent state identity
sdo-missing sdo-value sdo-order sdo-unplanned sdo-abort sdo-unanswered pdo-unplanned pdo-length pdo-inhibit pdo-event
pdo-missing pdo-extra pdo-window pdo-limit pdo-swapped pdo-value sync-period sync-missing sync-extra sync-counter
sync-unplanned time-missing time-bytes heartbeat-late heartbeat-missed emcy load cut clock-back error-frame remote-frame""".split())
BUS = frozenset("identity sdo-abort sdo-unanswered differs boots-again disturbed".split())
KNOWN = PLAN | SCRIPT | FILES | LOAD | LOG | BUS
DIAGNOSTIC = re.compile("[EW][0-9]{2}")


class Rule:
    """Words by which findings are accepted, and where they stand, None for `--allow`."""

    def __init__(self, words, place=None):
        self.words, self.place, self.is_used = words.split(), place, False

    def accepts(self, finding):
        return finding.words.split()[:len(self.words)] == self.words

    def is_for_others(self, codes):
        """Whether it accepts what commands find that have other codes than these."""
        code = self.words[0]
        return code in KNOWN and code not in codes or bool(DIAGNOSTIC.fullmatch(code)) and not codes >= PLAN


def add_allowed(parser):
    """The words that accept findings."""
    parser.add_argument("--allow", metavar="WORDS", action="append", default=[], help="accept findings; can be repeated")
    parser.add_argument("--allow-from", metavar="FILE", help="accept the findings of this file, one a line; # begins a comment")


def add_arguments(parser):
    """The words that accept findings, and that make errors of warnings."""
    add_allowed(parser)
    parser.add_argument("--werror", action="store_true", help="take warnings for errors")


def rules_of(options, read_text=tool.read_text):
    """The rules that the words of a command give."""
    rules = [Rule(words) for words in options.allow]
    if options.allow_from:
        for number, line in enumerate(read_text(options.allow_from).split(b"\n"), 1):
            text = tool.shown(line.split(b"#")[0]).strip()
            rules += [Rule(text, tool.Place(options.allow_from, number))] if text else []
    if not all(rule.words for rule in rules):
        raise tool.Fault("--allow has no words")
    return rules


def mark(findings, rules):
    """Marks those of some findings that rules accept."""
    for finding in findings:
        matching = [rule for rule in rules if rule.accepts(finding)]
        finding.accepted = bool(matching)
        for rule in matching:
            rule.is_used = True


def judge(findings, options, codes=PLAN):
    """Marks the accepted ones of some findings, and makes errors of the warnings left where that is asked for.

    codes  what the command may find besides diagnostics: a rule of another code is another command's
    """
    rules = rules_of(options)
    mark(findings, rules)
    for finding in findings:
        if options.werror and not finding.accepted:
            finding.severity = ERROR
    for rule in rules:
        if not rule.is_used and not rule.is_for_others(codes):
            where = f"{rule.place}: " if rule.place else "--allow: "
            tool.warn(f"{where}note: nothing is accepted by '{' '.join(rule.words)}'")
