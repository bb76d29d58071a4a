"""What can be done about a diagnostic: the word that a refusal means, a free TPDO, an inhibit time, a source."""
from __future__ import annotations

import re

from ..data_types import are_unlike
from ..load import Load
from ..traffic import time_text
from ..wiring import TPDO, pdo_numbers
from .asked import Asked, Params, Server
from .hover import network_of
from .outline import Row, number

QUICK = "quickfix"
MOST_SOURCES = 5

# What hints name in the place of the word that is wrong (hints.py, forms.py, likely.py, value_causes.py).
MEANT = re.compile(r"ID is a number: \S+ is node (\d+)|is hexadecimal without 0x: ([0-9A-Fa-f]+)|is it ([a-z-]+)\?|"
                   r"commands are in lower case: ([a-z-]+)|COB ([0-9A-F]{3}) would do|"
                   r"is in (?:microseconds|milliseconds|multiples of 100 microseconds): (\d+)|"
                   r"an NMT command is a number: \S+ is (\d+)|a hexadecimal number is written (0x[0-9A-Fa-f]+)|"
                   r"(?:no quotation marks|are told apart by /): (<[^;]+)")


def actions(server: Server, params: Params) -> list[Params]:
    """What can be done about the diagnostics of some rows."""
    asked, first, last = Asked(server, params), params["range"]["start"]["line"], params["range"]["end"]["line"]
    found = []
    for each in server.client.found_in(asked.uri):
        if first <= each["range"]["start"]["line"] <= last:
            found += [action(asked, each, *made) for made in of_diagnostic(asked, each)]
    return found + [action(asked, None, *made) for made in of_rows(asked, first, last)]


def action(asked, diagnostic, title, where, text):
    """An action that puts a text into a range."""
    made = {"title": title, "kind": QUICK, "edit": {"changes": {asked.uri: [{"range": where, "newText": text}]}}}
    return {**made, "diagnostics": [diagnostic]} if diagnostic else made


def of_diagnostic(asked, diagnostic):
    """What can be done about a diagnostic: the title, the range and the new text of each."""
    meant = MEANT.search(diagnostic["message"])
    where, row_number = diagnostic["range"], diagnostic["range"]["start"]["line"]
    row = Row(asked.rows[row_number])
    if meant:
        word = next(filter(None, meant.groups()))
        yield f"Write {word}", where, word
    if asked.state is None:
        return
    if diagnostic["code"] in ("E05", "E06") and row.name == "message":
        yield from free_tpdos(asked, row, row_number)
    if diagnostic["code"] == "E09" and row.name == "sink" and "has no source" in diagnostic["message"]:
        yield from sources(asked, row, row_number)


def free_tpdos(asked, row, row_number):
    """The first TPDO of the sender that no other message sends."""
    state, node = asked.state, number(row.words[2])
    if node not in state.project.nodes:
        return
    others = [message for name, message in state.project.messages.items() if name != row.words[1]]
    used = {number(row.words[3])} | {message.tpdo for message in others if message.node == node}
    free = next((each for each in pdo_numbers(state.evidence.device(node), TPDO) if each not in used), None)
    if free:
        yield f"Use TPDO {free}, which is free", asked.range(row_number, *row.spans[3]), str(free)


def sources(asked, row, row_number):
    """The entries of the sender that are as wide as the sink: a source at its position."""
    state = asked.state
    message, taker = state.project.messages.get(row.words[1]), number(row.words[3])
    if message is None or taker not in state.project.nodes:
        return
    key = int(row.words[4], 16), int(row.words[5], 16)
    sink = state.evidence.device(taker).entries.get(key)
    known = state.evidence.device(message.node).entries.items()
    fitting = [(key, entry) for key, entry in sorted(known, key=first) if sink and entry.is_sent()
               and entry.bits == sink.bits and not are_unlike(entry.kind, sink.kind)]
    end = {"line": row_number, "character": 0}
    for (index, sub), entry in fitting[:MOST_SOURCES]:
        text = f"source {row.words[1]} {number(row.words[2])} {index:04X} {sub}\n"
        yield f"Wire it to {index:04X}h:{sub:02X} {entry.name}".rstrip(), {"start": end, "end": end}, text


def first(pair):
    return pair[0]


def of_rows(asked, first, last):
    """What can be done about messages that nothing bounds: the least inhibit time that `cobtool load` names."""
    if asked.state is None:
        return
    for row_number in range(first, min(last, len(asked.rows) - 1) + 1):
        row = Row(asked.rows[row_number])
        is_whole = row.name == "message" and len(row.words) == 8
        message = asked.state.project.messages.get(row.words[1]) if is_whole else None
        if message and message.numbers[0] >= 254 and not message.numbers[1] and not message.numbers[2]:
            least = least_inhibit(asked.state)
            if least:
                yield (f"Send it at most each {time_text(100 * least)}, the least with which all is in time",
                       asked.range(row_number, *row.spans[5]), str(least))


def least_inhibit(state):
    """The least inhibit time by which those without a bound make nothing late, None where there is none."""
    network, _, _ = network_of(state)
    return Load(network, []).least_inhibit

