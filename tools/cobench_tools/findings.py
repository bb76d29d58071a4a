"""What is wrong with a script: what was refused, what `diag` says, and the boots that fail, each with its cause."""
from typing import Dict, Iterable, List, Tuple

from . import hints, meaning, pdo_values, safe_text, trace
from .message_causes import MessageCauses
from .pdo_causes import PdoCauses
from .safe_text import shortened
from .tool import Place
from .value_causes import ValueCauses

ERROR, WARNING = "error", "warning"
PDO_VALUES = "pdo-values"
WARNED = PDO_VALUES, "replaced", "no-source", "no-sink", "late-event", "bit-rate", "taken-twice", "receive-time", "real-limits", "sheet"
OF_PDOS = "tpdo", "rpdo", "limit", "receive"
MOST_NOTES = 8


Note = Tuple[Place, str]


class Finding:
    """Something that is wrong.

    place     the line that it is about
    severity  error or warning
    code      E09, or what kind of thing is wrong
    words     what says that it is this one, as `E09 message y_actual`: by these it can be accepted
    part      the part of the project that it is about, as `node 5`
    who       that part in words, "" for a command
    text      what is wrong, in words
    notes     further causes, each with its line
    accepted  whether the user has accepted it
    """

    def __init__(self, place: Place, words: str, part: str, who: str, text: str, notes: Iterable[Note] = ()) -> None:
        self.place, self.words, self.part, self.who, self.text, self.notes = place, words, part, who, text, tuple(notes)
        self.code, self.accepted = words.split(" ", 1)[0], False
        self.severity = WARNING if self.code[0] == "W" or self.code in WARNED else ERROR

    def same(self) -> Tuple[Place, str, str, str, Tuple[Note, ...]]:
        """What findings have in common that can be told as one."""
        return self.place, self.severity, self.code, self.text, self.notes


def lines_of(findings: Iterable[Finding]) -> List[str]:
    """The lines that tell findings: FILE:LINE: error: what is wrong [code]; those that differ by `who` alone as one."""
    groups: Dict[Tuple[Place, str, str, str, Tuple[Note, ...]], List[str]] = {}
    for finding in findings:
        groups.setdefault(finding.same(), []).append(finding.who)
    lines = []
    for (place, severity, code, text, notes), who in groups.items():
        more = [f"and {len(who) - 4} more"] if len(who) > 4 else []
        subject = ", ".join(who[:4] + more)
        what = safe_text.readable(f"{subject}: {text}" if subject else text)
        lines.append(f"{place}: {severity}: {what} [{code}]")
        lines += [f"{where}: note: {safe_text.readable(words)}" for where, words in notes]
    return lines


def milliseconds(time: float) -> str:
    """A time in microseconds, in words."""
    return f"{time / 1000:,.3f} ms"


def refused(answered):
    """The commands that were refused; those that were because an earlier one was are notes of its finding."""
    found, of_command, more = [], {}, {}
    for refusal in hints.refusals(answered.pairs):
        root = of_command.get(id(refusal.cause)) if refusal.cause else None
        finding = root or refused_one(refusal)
        of_command[id(refusal.command)] = finding
        if root is None:
            found.append(finding)
        elif len(root.notes) < MOST_NOTES:
            root.notes += ((refusal.command.place, refusal_text(refusal)),)
        else:
            more[root] = more.get(root, 0) + 1
    for root, count in more.items():
        root.notes += ((root.place, f"and {count} more refused likewise"),)
    return found


def refused_one(refusal):
    """The finding of a refused command."""
    return Finding(refusal.command.place, f"refused {refusal.shown}", "commands", "", refusal_text(refusal))


def refusal_text(refusal):
    return f"{shortened(refusal.shown)}: refused {refusal.reply}" + (f": {refusal.hint}" if refusal.hint else "")


def part_of(words):
    """The part of a project that a diagnostic with this subject is about."""
    whose = {"receive": "message", **dict.fromkeys(("param", "default", "tpdo", "rpdo", "limit"), "node")}
    return "identifiers" if words[0] == "cob" else f"{whose.get(words[0], words[0])} {words[1]}"


def diagnosed(evidence):
    """What `diag` says."""
    if not evidence.diagnostics:
        return []
    of_messages, of_values, of_pdos = MessageCauses(evidence), ValueCauses(evidence), PdoCauses(evidence)
    found = []
    for line in evidence.diagnostics:
        code, *words = line.split(" ")
        if words[0] == "message":
            (place, text), *notes = of_messages.of(code, words[1])
            found.append(Finding(place, line, part_of(words), f"message {words[1]}", text, notes[:MOST_NOTES]))
        else:
            place, who, text = of_pdos.of(words) if words[0] in OF_PDOS else of_values.of(code, words)
            found.append(Finding(place, line, part_of(words), who, text))
    return found


def unused_values(evidence):
    """The data sheets that give values to PDO objects, which nobody uses."""
    return [finding for eds in sorted(evidence.project.texts)
            for finding in values_of_pdos(eds, evidence.value_lines(eds),
                                          lambda line, eds=eds: evidence.origins.sheet_place(eds, line))]


def values_of_pdos(eds, lines, place):
    """The finding of these lines of a data sheet, which give values to PDO objects; `place` gives FILE:LINE of one."""
    return [Finding(place(first), f"{PDO_VALUES} {eds}", f"eds {eds}", f"data sheet {eds}",
                    pdo_values.not_used(len(lines)))
            for first in lines[:1]]


def of_boots(evidence, all_boots, said_of, why_of=lambda node, boot: ""):
    """The nodes that failed to boot, and those that aren't configured at the horizon, by the boots of each node.

    said_of  gives for some nodes what was last said by SDO, as `last_said` does
    why_of   gives why a boot isn't over, or why there is none, in words behind the others
    """
    mine = {node: all_boots.get(node, []) for node in evidence.project.booted}
    troubled = [node for node, each in mine.items() if not each or not all(boot.is_configured() for boot in each)]
    said = said_of(troubled) if troubled else {}
    return [finding for node in troubled for finding in troubles(evidence, node, mine[node], said[node], why_of)]


def troubles(evidence, node, mine, said, why_of):
    """What is wrong with the boots of a node, with what was last said by SDO at their ends."""
    def finding(words, text):
        return Finding(evidence.origins.place("node", node), words, f"node {node}", evidence.node_name(node), text)

    found = []
    for what in dict.fromkeys(boot.what for boot in mine if boot.has_failed()):
        ends = [boot.end for boot in mine if boot.what == what]
        since = f"; configured since {milliseconds(mine[-1].end)}" if mine[-1].is_configured() else ""
        found.append(finding(f"failed {node} {what[7:]}", failure(evidence, what, ends, said) + since))
    if not mine or mine[-1].what is None:
        end = f"isn't configured at the end, {milliseconds(evidence.project.horizon)}"
        since = f"its boot began at {milliseconds(mine[-1].start)}; last: {said[None]}" if mine else "it sent no boot-up message"
        why = why_of(node, mine[-1] if mine else None)
        found.append(finding(f"unconfigured {node}", f"{end}: {since}{why}"))
    return found


def failure(evidence, what, ends, said):
    """Boots that failed in one way, in words."""
    code = what[7:]
    why = {"timeout": f"no answer in {evidence.project.manager[3]} ms", "difference": "it isn't the device of its data sheet"}.get(code)
    why = why or f"abort {code} {meaning.ABORTS.get(int(code, 16), '')}".strip()
    again = f", and {len(ends) - 1} times more" if len(ends) > 1 else ""
    return f"failed to boot at {milliseconds(ends[0])}{again}: {why}; last: {said[ends[0]]}"


def last_said(evidence, lines, nodes):
    """What was last said by SDO to or by each of some nodes: by the time of each of its notes, and under None at the end."""
    network, said = meaning.Network(evidence.project, True), said_first(nodes)
    for line in lines:
        told = network.of(line)
        if told.node in said and told.kind == meaning.SDO:
            said[told.node][None] = said_without_name(evidence, told.node, told.text)
        elif isinstance(line, trace.Note) and line.node in said:
            said[line.node].setdefault(line.time, said[line.node][None])
    return said


def said_first(nodes):
    """What was said to or by some nodes before anything was."""
    return {node: {None: "no SDO frame"} for node in nodes}


def said_without_name(evidence, node, text):
    """What was said by SDO, without the name of the node, which stands before it."""
    return text.replace(f"{evidence.project.nodes[node][0]} ", "", 1)
