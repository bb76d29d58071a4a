"""What is other in one network than in another, in words: nothing is told of what is equal.

Each part of it takes the two sides, and gives lines: `what: old -> new`, with a `+` what is new, with a `-` what is gone.
"""
from . import judgement, safe_text, trace_difference
from .device import object_name
from .evidence import Evidence
from .file_difference import nodes
from .message_difference import messages
from .sheet_difference import sheets
from .wiring import Wiring

QUERIES = Evidence.QUERIES + ("dcf",)
NO_TIME = "none", "none"


class Side:
    """One of the two networks.

    project   what its script makes
    network   its nodes and PDOs
    findings  what is wrong with it
    """

    def __init__(self, answered):
        self.answered, self.project = answered, answered.project
        self.network, self.findings = Wiring(answered), judgement.of(answered)


def changed(what, old, new):
    """A line on what is other, or none."""
    return [] if old == new else [f"{what}: {old} -> {new}"]


def settings(old, new):
    """What is other in the settings of the network."""
    one, two = old.project, new.project
    names = ("number of the manager", "SYNC each [us]", "heartbeat of the manager [ms]", "SDO timeout [ms]")
    lines = changed("version of the script", one.version, two.version)
    lines += changed("bit rate [kbit/s]", one.bitrate, two.bitrate)
    for name, before, after in zip(names, one.manager, two.manager):
        lines += changed(name, before, after)
    for name, before, after in zip(("TIME each [us]", "first day of TIME"), one.time or NO_TIME, two.time or NO_TIME):
        lines += changed(name, before, after)
    return (lines + changed("SYNC is counted to", one.sync_counter or "none", two.sync_counter or "none")
            + changed("horizon [us]", one.horizon, two.horizon))


def event_text(event):
    """An event in words."""
    if event.kind == "nmt":
        return f"{event.time} us, NMT {event.what} to {event.node or 'all'}"
    is_set = event.kind == "set"
    what = f"{object_name(event.entry)} := {safe_text.readable(event.what)}" if is_set else f"power {event.what}"
    return f"{event.time} us, node {event.node}: {what}"


def scenario(old, new):
    """What is other in the events."""
    lines = []
    for number in sorted(set(old.project.events) | set(new.project.events)):
        before, after = (side.project.events.get(number) for side in (old, new))
        if before is None or after is None:
            lines.append(f"{'-' if after is None else '+'} event {number}: {event_text(before or after)}")
        else:
            lines += changed(f"event {number}", event_text(before), event_text(after))
    return lines


def diagnostics(old, new):
    """What is wrong with one of them alone."""
    known = [{finding.words for finding in side.findings} for side in (old, new)]
    gone = [("-", each) for each in old.findings if each.words not in known[1]]
    come = [("+", each) for each in new.findings if each.words not in known[0]]
    return [safe_text.readable(f"{sign} {each.severity}: {each.who}: {each.text} [{each.code}]")
            for sign, each in gone + come]


def trace(old, new):
    return trace_difference.lines_of(old, new)


PARTS = {"Settings": settings, "Data sheets": sheets, "Nodes and their files": nodes, "Messages": messages,
         "Scenario": scenario, "What is wrong": diagnostics, "Trace": trace}


def text_of(old, new):
    """All that is other, each part under its title; nothing where nothing is."""
    found = {title: part(old, new) for title, part in PARTS.items()}
    return "\n".join(f"{title}\n" + "".join(f"  {line}\n" for line in lines) for title, lines in found.items() if lines)
