"""What the page shows of the answers to a project: what is wrong, nodes with their files, and tables; what is new is marked.

All of it is made of a session (session.Session) whose queries an open cobench has answered.
"""
import copy
import functools
import re

from .. import acceptance, concise, device, findings, ini, judgement, matrix, pdo_values, real_limits, safe_text, slips, taken_twice, tool
from ..evidence import Evidence
from ..report import Report, json_of
from ..script_order import ScriptOrder
from .kept_faults import KeptFaults
from .network import Tables

FILE_TYPES = {"dcf": "text/plain; charset=utf-8", "bin": "application/octet-stream"}


MOST_LINES = 2_000  # of a run of more lines the boots alone are judged, as it is gone through anew after each save


def wrong_item(found, answered):
    """What is wrong, by the findings of `check` in the order of the script, and the lines of `diag`."""
    open_ones = [each.severity for each in found if not each.accepted]
    return {"errors": open_ones.count(findings.ERROR), "warnings": open_ones.count(findings.WARNING),
            "findings": [json_of(each) for each in ScriptOrder(answered.pairs).sorted(found)],
            "diagnostics": [safe_text.readable(tool.shown(line)) for line in answered.lines("diag")]}


class File:
    """The files of a node as cobench prints them: the lines of its DCF and of its concise DCF."""

    def __init__(self, lines, writes):
        self.lines, self.writes = lines, writes

    @property
    def dcf(self):
        return b"".join(line + b"\n" for line in self.lines)

    @property
    def bin(self):
        return concise.bytes_of(self.writes)

    @functools.cached_property
    def values(self):
        """The bytes of each entry that it writes, the last of each."""
        return concise.values_of(self.writes)

    def is_of(self, lines, writes):
        """Whether it is made of these, which stay the same where they are other in nothing."""
        return self.lines is lines and self.writes is writes


def node_item(evidence, node, file, before):
    """A node: its parameters and files, with what they were before the last save where that was another."""
    project = evidence.project
    name, eds = project.nodes[node]
    return {"node": node, "name": name, "sheet": eds, "need": matrix.need_of(project, node),
            "file": f"{node}_{name}", "values": values_of(evidence, node, file, before),
            "dcf": readable_lines(file.lines),
            "marks": marks_of(file, before), "bytes": file.bin.hex().upper(), "isNew": before is None}


def values_of(evidence, node, file, before):
    """The values that a node's files set: entry, name, value, and its value before or null; those that are gone too."""
    now, old = file.values, before.values if before else {}
    sheet, rows = evidence.device(node), []
    for key in sorted(set(now) | set(old)):
        entry, was = sheet.entries.get(key), None
        if before and now.get(key) != old.get(key):
            was = shown_value(key, entry, old.get(key))
        rows.append([device.object_name(key), entry.name if entry else "", shown_value(key, entry, now.get(key)), was])
    return rows


def shown_value(key, entry, data):
    """The bytes of an entry as a value, those of PDO objects in hexadecimal; a dash where it isn't set."""
    if data is None:
        return matrix.NONE
    if pdo_values.is_of_pdos(key[0]):
        return f"{int.from_bytes(data, 'little'):X}h"
    return safe_text.readable(matrix.value_text(entry.kind if entry else 0, data))


def readable_lines(lines):
    """Lines for reading."""
    try:
        return b"\n".join(lines).decode().split("\n") if lines else []
    except UnicodeDecodeError:
        return [safe_text.readable(tool.shown(line)) for line in lines]


def marks_of(file, before):
    """The lines of a DCF that are new since the last save, by their places from 0, each with the value that was there."""
    if not before or before.lines == file.lines:
        return []
    marks = marks_of_values(file.lines, before.lines)
    if marks is not None:
        return marks
    old, marks = ini.sections_of(before.lines), []
    for name, section in ini.sections_of(file.lines).items():
        was = old.get(name, {})
        marks += [[section.lines[key] - 1, safe_text.readable(was[key]) if key in was else None]
                  for key, value in section.items() if was.get(key) != value]
    return sorted(marks, key=lambda mark: mark[0])


def marks_of_values(lines, old):
    """The same where nothing but values of keys is other, which is told line by line; else None."""
    places = [place for place, (line, was) in enumerate(zip(lines, old)) if line != was]
    pairs = [(ini.pair_in(lines[place]), ini.pair_in(old[place])) for place in places]
    if len(lines) != len(old) or not all(now and was and now[0] == was[0] for now, was in pairs):
        return None
    return [[place, safe_text.readable(was[1])] for place, (now, was) in zip(places, pairs) if now[1] != was[1]]


class Answers:
    """The answers that the page shows now, and those before the last save.

    sheets  the data sheets by name, read once as long as they stay the same
    files   the files of each node
    tables  the tables of the network
    rules   by which findings are accepted (acceptance.Rule)
    """

    def __init__(self):
        self.sheets, self.files, self.tables, self.rules = {}, {}, Tables(), []
        self._texts, self._shown, self._marked = {}, {}, set()
        self._found, self._of_run, self._faults = [], [], KeptFaults()

    def copy(self):
        """The same, to go on from."""
        made = copy.copy(self)
        made.tables = copy.copy(self.tables)
        return made

    def evidence(self, answered):
        """The evidence of a session, over data sheets that were read before."""
        texts = answered.project.texts
        for name, lines in texts.items():
            texts[name] = self._texts[name] if self._texts.get(name) == lines else lines
        kept = {name: sheet for name, sheet in self.sheets.items()
                if texts.get(name) is self._texts[name] and sheet.version == answered.project.version}
        evidence = Evidence(answered, kept)
        self._texts, self.sheets = texts, {name: evidence.sheet(name) for name in texts}
        return evidence

    def take(self, answered, evidence, is_first):
        """The items that are other than before a save; of the first one nothing is marked as new."""
        items = self._take_nodes(answered, evidence, is_first)
        items.update(self.tables.take(answered, self.sheets, self.files))
        evidence.know(self.tables.nodes())
        self._found = findings.refused(answered) + findings.diagnosed(evidence) + findings.unused_values(evidence)
        self._found += slips.of(evidence) + taken_twice.of(evidence) + real_limits.of(evidence) + self._faults.of(evidence)
        return {**items, "wrong": self._wrong(answered)}

    def _wrong(self, answered):
        """What is wrong so far; the user accepts some of it."""
        found = self._found + self._of_run
        acceptance.mark(found, self.rules)
        return wrong_item(found, answered)

    def of_run(self, answered, evidence, run, text):
        """The items that the trace, which is this text, decides too: what is wrong with all of it, and when each node
        was configured.
        """
        boots, said_of = run.boots(), functools.partial(run.last_said, evidence)
        if text.count(b"\n") > MOST_LINES:
            self._of_run = findings.of_boots(evidence, boots, said_of)
        else:
            answered.answers["trace"] = text.split(b"\n")[:-1]
            self._of_run = judgement.of_run(evidence, said_of)
        report = Report(answered, [], boots)
        return {"wrong": self._wrong(answered),
                "boots": {"text": report.boots_text(), "times": {str(node): time for node, time in report.booted.items()}}}

    def places(self):
        """Each FILE:LINE that a finding names, as file and line."""
        found = self._found + self._of_run
        named = [finding.place for finding in found] + [place for finding in found for place, _ in finding.notes]
        return {(place.path, place.line) for place in named}

    def _take_nodes(self, answered, evidence, is_first):
        """The nodes that are other than they were, that were marked by the save before, or are gone."""
        before, shown, project = self.files, self._shown, answered.project
        self.files = {node: file_of(answered, node, before.get(node)) for node in project.nodes}
        self._shown = {node: (project.nodes[node], matrix.need_of(project, node), project.texts[project.nodes[node][1]],
                              file.lines, file.writes) for node, file in self.files.items()}
        changed = {node for node in self.files if self._shown[node] != shown.get(node)}
        items = {f"node/{node}": None for node in before if node not in self.files}
        for node in changed | self._marked & set(self.files):
            file = self.files[node]
            old = before.get(node) if node in changed and not is_first else file
            items[f"node/{node}"] = node_item(evidence, node, file, old)
        self._marked = set() if is_first else changed
        return items

    def saved(self, name):
        """The bytes and the type of a file that can be saved, by its name, else None."""
        found = re.fullmatch(r"([0-9]{1,3})\.(dcf|bin)", name)
        file = self.files.get(int(found.group(1))) if found else None
        return (getattr(file, found.group(2)), FILE_TYPES[found.group(2)]) if file else None


def file_of(answered, node, before):
    """The files of a node: those before, where they are the same."""
    lines, writes = answered.lines("dcf", node), answered.lines("cdcf", node)
    return before if before and before.is_of(lines, writes) else File(lines, writes)
