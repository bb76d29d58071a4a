"""What is said of the word under the pointer: an object, a message, a node, a COB-ID, a command, a code."""
from __future__ import annotations

from .. import safe_text
from ..device import object_name
from ..forms import FORMS, usage
from ..load import Analysis, most
from ..matrix import need_of, when, within
from ..meaning import PREDEFINED
from ..picture import STATES
from ..plan import SERVICES
from ..traffic import time_text, traffic_of
from ..wiring import Wiring
from . import codes, command_words, entries, sheet_places
from .asked import AskedPlace, Params, Server
from .outline import MESSAGE, NODE, NODE_NAME, SHEET, hexadecimal
from .paths import is_sheet

OF_ENTRIES = "INDEX", "SUB", "TEXT"


def hover(server: Server, params: Params) -> Params | None:
    """What is said of a place, as Markdown, None for nothing."""
    asked = AskedPlace(server, params)
    if is_sheet(asked.path):
        text, where = sheet_places.hover(asked), None
    else:
        text, where = of_script(asked)
    parts = [part for part in (text, of_codes(asked)) if part]
    if not parts:
        return None
    made = {"contents": {"kind": "markdown", "value": "\n\n---\n\n".join(parts)}}
    return {**made, "range": where} if where else made


def of_script(asked):
    """What is said of the word at a place of a script, and its range."""
    if asked.place is None or not asked.is_command():
        return None, None
    row, place, state = asked.row, asked.place, asked.state
    where = asked.range(asked.number, *row.spans[place])
    if place == 0:
        return of_command(row.name), where
    kind = row.kinds[place]
    if state is None:
        return None, None
    if kind in OF_ENTRIES:
        return of_entry(row, state), where
    if kind == "COB":
        return of_identifier(hexadecimal(row.words[place]), state), where
    what, name = row.named(place) or (None, None)
    if what == NODE or what == NODE_NAME:
        return of_node(int(row.word("ID") or row.word("TO")), state), where
    if what == MESSAGE:
        return of_message(name, state), where
    return (of_sheet(name, state), where) if what == SHEET else (None, None)


def of_command(name):
    """How a command is written, and what it does."""
    if name not in FORMS:
        return None
    return f"`{usage(name, FORMS[name].split())}`\n\n{command_words.MEANINGS.get(name, '')}".rstrip()


def of_entry(row, state):
    """An object of the node that a row is about."""
    node, (index, sub) = entries.node_of(row, state.project), entries.key_of(row)
    if node is None or index is None or row.name in ("message", "manager"):
        return None
    return entries.described(state.evidence, node, (index, 0 if sub is None else sub))


def of_sheet(name, state):
    """A data sheet: its device, and the nodes that use it."""
    project = state.project
    if name not in project.texts:
        return None
    device, mark = state.evidence.sheet(name), safe_text.markdown
    info = device.sections.get("deviceinfo", {})
    about = " ".join(mark(info[key]) for key in ("vendorname", "productname") if info.get(key))
    nodes = [f"{node} {known}" for node, (known, eds) in sorted(project.nodes.items()) if eds == name]
    lines = [f"**data sheet {name}**", "", *([about] if about else []), f"{len(device.entries):,} entries",
             "used by: " + (", ".join(mark(each) for each in nodes) or "no node")]
    return "  \n".join(lines)


# Nodes.

def of_node(number, state):
    """A node: its data sheet, its state at the end of the run, when it was configured, and its files."""
    project, answered = state.project, state.answered
    if number not in project.nodes:
        return "the manager" if number == project.manager[0] else None
    name, eds = project.nodes[number]
    need = need_of(project, number)
    dcf, cdcf = answered.lines("dcf", number), answered.lines("cdcf", number)
    size = sum(len(line.split()) for line in cdcf)
    lines = [f"**node {number} {name}**", "", f"data sheet {eds}, {need}", *of_run(number, state),
             f"DCF: {len(dcf):,} lines; concise DCF: {size:,} bytes"]
    return "  \n".join(lines)


def of_run(number, state):
    """What the run shows of a node."""
    if state.boots is None:
        return ["the run isn't there yet"]
    ends = [boot.end for boot in state.boots.get(number, []) if boot.is_configured()]
    is_booted = number != state.project.controller
    states = state.run.about()["states"].get(number) or [[0, 0]]
    booted = f"configured at {ends[0] / 1000:,.3f} ms" if ends else "never configured" if is_booted else "nobody boots it"
    return [f"{STATES[states[-1][1]]} at the end of the run, {state.project.horizon / 1000:,.3f} ms; {booted}"]


# Messages and identifiers.

def of_message(name, state):
    """A message: its identifier, what its bytes are, how often it comes, and what it takes of the bus."""
    message = state.project.messages.get(name)
    if message is None:
        return None
    planned, evidence = state.evidence.plan.messages[name], state.evidence
    lines = [f"**message {name}**", "", f"{evidence.node_name(message.node)}, TPDO {message.tpdo}"]
    if planned.faults:
        faults = [f"- {each.words}" for each in planned.faults]
        return "  \n".join([*lines, "it has errors, and is in no PDO:", *faults])
    lines[-1] += f", COB-ID {planned.identifier:03X}h"
    return "  \n".join(lines + taken_by(planned, state) + of_bus(name, state)) + "\n\n" + layout(message, state)


def taken_by(planned, state):
    """By which RPDO each consumer takes a message, and within which time it expects one."""
    takers = [f"{state.project.nodes[node][0]} (RPDO {number}{within(planned.milliseconds(node))})"
              for node, (number, _) in sorted(planned.rpdos.items())]
    return [f"taken by {safe_text.markdown(', '.join(takers))}"] if takers else []


def layout(message, state):
    """The bits of a message and what they carry, as a table."""
    lines, start = ["| bits | source | taken by |", "|---|---|---|"], 0
    for place, key in sorted(message.sources.items()):
        entry = state.evidence.device(message.node).entries[key]
        takers = [f"{state.project.nodes[node][0]} {object_name(sink)}"
                  for (at, node), sink in sorted(message.sinks.items()) if at == place]
        name = safe_text.markdown(f"{object_name(key)} {entry.name}".rstrip())
        end = start + entry.bits
        lines.append(f"| {start} to {end - 1} | {name} | {safe_text.markdown(', '.join(takers) or 'nobody')} |")
        start = end
    return "\n".join(lines)


def network_of(state):
    """The network of a state, and its load with the most stuff bits: made once."""
    if state.network is None:
        nodes = {number: state.evidence.node(number) for number in state.project.nodes}
        network = Wiring(state.answered, nodes)
        found = traffic_of(network)
        state.network = network, found, Analysis(found, 1000 // state.project.bitrate, most)
    return state.network


def of_bus(name, state):
    """How often a message comes, its share of the bus, and its longest wait."""
    network, found, analysis = network_of(state)
    traffic = next((each for each in found if each.tpdo and network.message_of(each.tpdo) == name), None)
    if traffic is None:
        tpdo = next((each for each in network.tpdos if network.message_of(each) == name), None)
        return [f"sent {when(tpdo)}; no SYNC sends it" if tpdo else "it carries nothing, and is never sent"]
    share, response = analysis.share(traffic), analysis.of[traffic]
    lines = [f"comes {traffic.comes}" + (f" ({time_text(traffic.period)})" if traffic.period else "")]
    if share is not None:
        lines.append(f"{traffic.size} bytes, at most {share:.2f} % of the bus")
    if response.wait is None:
        return lines + ["no bound on how long it waits"]
    return lines + [f"at worst there after {response.wait / 1000:,.3f} ms"]


def of_identifier(identifier, state):
    """What an identifier is for."""
    if not identifier:
        return "0: the plan gives the COB-ID; the predefined one of the TPDO where that is free, else one from 681h on"
    plan = state.evidence.plan
    named = [name for name, each in plan.messages.items() if not each.faults and each.identifier == identifier]
    service = next((f"belongs to {what}" for low, high, what in SERVICES if low <= identifier <= high), None)
    known, node = PREDEFINED.get(identifier & 0x780), identifier & 0x7F
    lines = [f"**{identifier:03X}h**", "", *([f"message {named[0]}"] if named else []), *([service] if service else [])]
    name, _ = state.project.nodes.get(node, ("", ""))
    lines += [f"predefined: {known} of node {node} {name}".rstrip()] if known and node else []
    return "  \n".join(lines + ([] if named or service else ["no message has it"]))


# Codes.

def of_codes(asked):
    """What the codes of the diagnostics at a place mean on a machine."""
    found = []
    for each in asked.server.client.found_in(asked.uri):
        is_here = holds(each["range"], asked.params["position"])
        meaning = codes.meaning_of(each["code"], "DefaultValue" in each["message"]) if is_here else None
        if meaning:
            found.append(f"**{each['code']}** {meaning[0]}\n\n{meaning[1]}")
    return "\n\n".join(dict.fromkeys(found))


def holds(where, place):
    """Whether a range has a place."""
    first, here, last = ((each["line"], each["character"]) for each in (where["start"], place, where["end"]))
    return first <= here <= last
