"""All that is wrong with a script as the protocol has it: each at its words, with the lines that it is about."""
import functools
import os
import re

from .. import findings, safe_text, tool
from ..findings import ERROR, WARNING
from . import ranges
from .documents import short

INFORMATION = "information"     # what was refused because an earlier command was
SEVERITIES = {ERROR: 1, WARNING: 2, INFORMATION: 3}
SOURCE = "cobtool"
PLACE = re.compile(r"\(([^()]+):([0-9]+)\)")


class Diagnostics:
    """The diagnostics of a state of a script, by the files that they are in."""

    def __init__(self, documents, root):
        self.documents, self.root, self._lines, self._found = documents, root, {}, {}
        self.folder = os.path.dirname(root)

    def of_state(self, state):
        """Those of a state, by path: each file that the script names is there."""
        for path in [self.root] + state.reading.files:
            self._found.setdefault(path, [])
        for command, fault in state.reading.faults:
            self._add(command.place, functools.partial(ranges.of_fault, command), 1, "file", fault)
        for refusal in state.refusals:
            severity = ERROR if refusal.cause is None else INFORMATION
            where = functools.partial(ranges.of_refusal, refusal)
            self._add_finding(findings.refused_one(refusal), where, (), severity)
        for each in state.found + state.run_found:
            self._add_finding(each, functools.partial(ranges.of_finding, each), more_of(each, state))
        return self._found

    def of_fault(self, fault):
        """Why nothing is known of the script: one in its first line."""
        self._add(tool.Place(self.root, 1), ranges.of_row, 1, "file", str(fault))
        return self._found

    def _add_finding(self, finding, range_of, more=(), severity=None):
        text = f"{finding.who}: {finding.text}" if finding.who else finding.text
        grade = SEVERITIES[severity or finding.severity]
        self._add(finding.place, range_of, grade, finding.code, text, [*finding.notes, *more])

    def _add(self, place, range_of, severity, code, text, notes=()):
        message = short(safe_text.readable(text), self.folder)
        row = self._rows(place.path).row_of(place.line)
        where = range_of(self._rows(place.path).rows[row], row)
        made = {"range": where, "severity": severity, "code": code, "source": SOURCE, "message": message}
        related = [self._related(*note) for note in [*notes, *places_in(text)]]
        if related:
            made["relatedInformation"] = related
        self._found.setdefault(place.path, []).append(made)

    def _related(self, place, text):
        lines = self._rows(place.path)
        row = lines.row_of(place.line)
        return {"location": {"uri": self.documents.uri(place.path), "range": ranges.of_row(lines.rows[row], row)},
                "message": short(safe_text.readable(text), self.folder)}

    def _rows(self, path):
        if path not in self._lines:
            self._lines[path] = self.documents.lines(path)
        return self._lines[path]


def places_in(text):
    """The lines that a text names in brackets, as (FILE:LINE)."""
    return [(tool.Place(path, int(line)), "it is about this line too") for path, line in PLACE.findall(text)]


def more_of(finding, state):
    """The other ends of what a finding of a message is about: its command, and the source of a sink."""
    words = finding.words.split()
    if len(words) < 3 or words[1] != "message":
        return []
    origins, found = state.evidence.origins, []
    message = origins.command("message", words[2])
    command = next((each for each, _ in state.answered.pairs if each.place == finding.place), None)
    if message and message.place != finding.place:
        found.append((message.place, f"message {words[2]}"))
    if command and command.name == b"sink" and command.words[2].isdigit():
        source = origins.command("source", words[2], int(command.words[2]))
        found += [(source.place, "its source")] if source else []
    return found


def by_uri(documents, found):
    """Diagnostics as they are published: for each file those that differ, by their places."""
    made = {}
    for path, several in found.items():
        unique = []
        for each in several:
            if each not in unique:
                unique.append(each)
        made.setdefault(documents.uri(path), []).extend(unique)
    return {uri: sorted(each, key=place_of) for uri, each in made.items()}


def place_of(diagnostic):
    start = diagnostic["range"]["start"]
    return start["line"], start["character"], diagnostic["code"], diagnostic["message"]
