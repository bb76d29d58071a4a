"""What `check` and `export` tell of the findings of a script: as text, as JSON and as JUnit XML."""
from typing import Any, Dict, List, Optional
from xml.etree.ElementTree import Element, SubElement, tostring

from . import boots, safe_text, tool, trace
from .findings import ERROR, WARNING, Finding, lines_of, milliseconds
from .session import Session


def counted(number: int, what: str) -> str:
    """A number of things: `1 error`, `no errors`."""
    return f"{number or 'no'} {what}{'' if number == 1 else 's'}"


class Report:
    """The findings of a session, those that were accepted marked, with what became of its nodes.

    open    the findings that aren't accepted
    booted  the microsecond at which each node that booted was configured first, by its number

    `all_boots` are the boots of each node, where they are known already.
    """

    def __init__(self, answered: Session, findings: List[Finding], all_boots: Optional[Dict[int, List[Any]]] = None) -> None:
        self.answered, self.findings = answered, findings
        self.open = [finding for finding in findings if not finding.accepted]
        if all_boots is None:
            all_boots = boots.boots_of(trace.of_answer(answered.lines("trace")))
        ends = {node: [boot.end for boot in all_boots.get(node, []) if boot.is_configured()] for node in answered.project.booted}
        self.booted = {node: times[0] for node, times in sorted(ends.items()) if times}

    def count(self, severity: str) -> int:
        return sum(finding.severity == severity for finding in self.open)

    @property
    def status(self) -> int:
        return tool.FOUND if self.count(ERROR) else tool.DONE

    def summary(self) -> str:
        """What there is, in one line: `1 error, no warnings; 3 of 3 nodes booted by 60.244 ms`."""
        accepted = len(self.findings) - len(self.open)
        words = [counted(self.count(ERROR), "error"), counted(self.count(WARNING), "warning")]
        words += [f"{accepted} accepted"] if accepted else []
        return f"{', '.join(words)}; {self.boots_text()}"

    def boots_text(self) -> str:
        """How many nodes booted, and when the last of them was configured."""
        nodes = len(self.answered.project.booted)
        by = f" by {milliseconds(max(self.booted.values()))}" if self.booted else ""
        none = "no nodes to boot" if self.answered.project.nodes else "no nodes"
        return f"{len(self.booted)} of {counted(nodes, 'node')} booted{by}" if nodes else none

    def as_text(self) -> str:
        return "".join(f"{line}\n" for line in lines_of(self.open) + [self.summary()])

    def as_json(self, **more: Any) -> str:
        """All of it for programs, accepted findings too, with what else there is to tell."""
        findings = [json_of(finding) for finding in self.findings]
        nodes = [{"node": node, "name": name, "configured_us": self.booted.get(node)}
                 for node, (name, _) in sorted(self.answered.project.nodes.items())]
        whole = {"script": self.answered.path, "status": self.status, "errors": self.count(ERROR),
                 "warnings": self.count(WARNING), "findings": findings, "nodes": nodes, **more}
        return safe_text.as_json(whole)

    # JUnit XML: a test case for each part of the project, which fails where it has an error.

    def parts(self) -> List[str]:
        """The parts of the project, those with findings that it hasn't among them."""
        project = self.answered.project
        names = ["commands", "identifiers"] + [f"eds {name}" for name in sorted(project.texts)]
        names += [f"node {node}" for node in sorted(project.nodes)] + [f"message {name}" for name in sorted(project.messages)]
        names += [f"event {number}" for number in sorted(project.events)]
        return names + sorted({finding.part for finding in self.open} - set(names))

    def as_junit(self) -> str:
        """The report for servers of continuous integration."""
        script = safe_text.readable(self.answered.path)
        suites = Element("testsuites")
        suite = SubElement(suites, "testsuite", name=script)
        cases = [self.add_case(suite, script, part) for part in self.parts()]
        suite.attrib.update(tests=str(len(cases)), failures=str(len(suite.findall("testcase/failure"))), errors="0")
        return f'<?xml version="1.0" encoding="UTF-8"?>\n{tostring(suites, encoding="unicode")}\n'

    def add_case(self, suite: Element, script: str, part: str) -> Element:
        """The test case of a part of the project."""
        mine = [finding for finding in self.open if finding.part == part]
        errors = lines_of([finding for finding in mine if finding.severity == ERROR])
        others = lines_of([finding for finding in mine if finding.severity != ERROR])
        case = SubElement(suite, "testcase", classname=script, name=safe_text.readable(part))
        if errors:
            SubElement(case, "failure", message=errors[0]).text = "\n".join(errors)
        if others:
            SubElement(case, "system-out").text = "\n".join(others)
        return case


def json_of(finding: Finding) -> Dict[str, Any]:
    """A finding as a record."""
    notes = [{"file": place.path, "line": place.line, "text": safe_text.readable(text)} for place, text in finding.notes]
    return {"file": finding.place.path, "line": finding.place.line, "severity": finding.severity, "code": finding.code,
            "words": safe_text.readable(finding.words), "part": finding.part, "who": finding.who,
            "text": safe_text.readable(finding.text), "notes": notes, "accepted": finding.accepted}
