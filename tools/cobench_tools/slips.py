"""Slips of a script: what a later line replaces, messages with nobody at an end, receivers that expect one sooner than it comes,
late events, bit rates."""
from .device import read_number
from .findings import Finding, milliseconds
from .safe_text import shortened
from .origins import part_of

REPLACED, NO_SOURCE, NO_SINK, LATE_EVENT, BIT_RATE = "replaced", "no-source", "no-sink", "late-event", "bit-rate"
RECEIVE_TIME, LAST_SYNCED = "receive-time", 240
QUERIES = b"dcf", b"cdcf", b"diag", b"trace", b"project"
REPLACEABLE = "node", "message", "param", "event", "source", "sink", "receive"
DROPS = {"drop-node": ("node", "param"), "drop-message": ("message", "source", "sink", "receive"), "drop-event": ("event",),
         "unparam": ("param",), "unsource": ("source",), "unsink": ("sink",), "unreceive": ("receive",)}


def of(evidence):
    """The slips of a script, as warnings."""
    return replaced(evidence.answered.pairs) + open_ends(evidence) + short_times(evidence) + late_events(evidence) + bit_rates(evidence)


# Lines that a later line replaces, with no query between that they serve.

def replaced(pairs):
    made, found = {}, []
    for command, reply in pairs:
        if command.name in QUERIES:
            made.clear()
        elif reply.is_accepted():
            found += taken(command, made)
    return found


def taken(command, made):
    """Takes an accepted edit; the findings where it replaces what an earlier line has made since the last query."""
    words = command.shown_words
    if words[0] in DROPS:
        forget(words, made)
        return []
    part = part_of(command.line)
    if part is None or part[0] not in REPLACEABLE:
        return []
    before, made[part] = made.get(part), command
    return [replacement(part, before, command)] if before else []


def forget(words, made):
    """What a command drops is replaced by nobody."""
    dropped = part_of(b" ".join([DROPS[words[0]][0].encode(), *map(str.encode, words[1:])]))
    for part in [each for each in made if each[0] in DROPS[words[0]] and each[1:len(dropped)] == dropped[1:]]:
        del made[part]


def replacement(part, before, command):
    """That a command replaces an earlier one."""
    same_file = before.path == command.path
    where = f"line {before.number}" if same_file else f"{before.place}"
    old, new = (shortened(each.line.decode("utf-8", "surrogateescape").strip()) for each in (before, command))
    replaces = f"it replaces {old} of {where}, and nothing is asked between"
    text = f"{new}: it repeats {where}" if old == new else f"{new}: {replaces}"
    words = command.shown_words[:len(part)]
    return Finding(command.place, " ".join([REPLACED, *words]), part_name(part), "", text)


def part_name(part):
    """The part of a project that a part is of, as findings name it."""
    kind = {"param": "node", "source": "message", "sink": "message", "receive": "message"}.get(part[0], part[0])
    return f"{kind} {part[1]}"


# Messages with nobody at an end, and events that never come.

def open_ends(evidence):
    """The messages without a source, and those with sources that nobody takes."""
    found = []
    for name, message in evidence.project.messages.items():
        if not message.sources:
            found.append(of_message(evidence, NO_SOURCE, name, "has no source: it carries nothing"))
        elif not message.sinks:
            found.append(of_message(evidence, NO_SINK, name, "has no sink: no node takes it"))
    return found


def of_message(evidence, code, name, text):
    who = f"message {name}"
    return Finding(evidence.origins.place("message", name), f"{code} {name}", who, who, text)


def short_times(evidence):
    """The receives whose time is over before the next frame has to come."""
    found = []
    for name, planned in evidence.plan.messages.items():
        for node in sorted(set(planned.consumers) & set(planned.message.receives)) if not planned.faults else ():
            time, (period, comes) = planned.milliseconds(node), longest_pause(planned.message, evidence.project.manager[1])
            if time and (period is None or period >= 1000 * time):
                text = f"{evidence.node_name(node)} expects it within {time} ms, and it comes {comes}"
                found.append(Finding(evidence.origins.place("receive", name, node), f"{RECEIVE_TIME} {name} {node}", f"message {name}",
                                     f"message {name}", text))
    return found


def longest_pause(message, sync):
    """The longest time in microseconds between two frames of a message, None for no bound, and in words how they come."""
    kind, _, event, _ = message.numbers
    if kind <= LAST_SYNCED and (kind or not sync):      # without SYNC it never comes, as W18 says
        return kind * sync, f"each {milliseconds(kind * sync)}"
    return (1000 * event, f"each {event} ms at the latest") if kind > LAST_SYNCED and event else (None, "when a value changes alone")


def late_events(evidence):
    """The events behind the horizon."""
    horizon, found = evidence.project.horizon, []
    for number, event in evidence.project.events.items():
        if event.time > horizon:
            text = (f"its time, {milliseconds(event.time)}, is behind the horizon, {milliseconds(horizon)}: "
                    "it never happens")
            found.append(Finding(evidence.origins.place("event", number), f"{LATE_EVENT} {number}", f"event {number}",
                                 f"event {number}", text))
    return found


def bit_rates(evidence):
    """The data sheets of nodes that rule the network's bit rate out."""
    project, found = evidence.project, []
    for eds in sorted({eds for _, eds in project.nodes.values()}):
        about, key = evidence.sheet(eds).sections.get("deviceinfo"), f"baudrate_{project.bitrate}"
        if about is None or key not in about or read_number(about[key]) != 0:
            continue
        nodes = [evidence.node_name(node) for node, (_, other) in sorted(project.nodes.items()) if other == eds]
        more = [f"and {len(nodes) - 4} more"] if len(nodes) > 4 else []
        text = (f"has BaudRate_{project.bitrate}=0, and the network {project.bitrate} kbit/s: "
                f"no bus for {', '.join(nodes[:4] + more)}")
        found.append(Finding(evidence.origins.sheet_place(eds, about.lines[key]), f"{BIT_RATE} {eds}", f"eds {eds}",
                             f"data sheet {eds}", text))
    return found
