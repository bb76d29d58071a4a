"""Objects of data sheets in the words of the editor: whose they are, what they are, and who sends or takes them."""
from .. import safe_text, values
from ..data_types import type_name
from ..device import object_name
from ..matrix import value_text
from ..pdo_values import is_of_pdos
from .outline import hexadecimal, number


def node_of(row, project):
    """The node whose entry the INDEX and SUB of a row are of, None where that isn't known."""
    if row.name == "source":
        message = project.messages.get(row.word("MESSAGE"))
        return message.node if message else None
    word = row.word("ID")
    return number(word) if word and number(word) in project.nodes else None


def key_of(row):
    """The entry that a row names: index and sub-index, the latter None where it has none yet."""
    index, sub = row.word("INDEX"), row.word("SUB")
    return hexadecimal(index) if index else None, hexadecimal(sub) if sub else None


def type_text(entry):
    """Type and access of an entry: `UNSIGNED16, rw`."""
    return f"{type_name(entry.kind)}, {entry.access}"


def limits_text(entry):
    """The limits of an entry as its data sheet has them, "" where it has none."""
    if entry.low and entry.high:
        return f"{readable(entry.low)} to {readable(entry.high)}"
    return f"at least {readable(entry.low)}" if entry.low else f"at most {readable(entry.high)}" if entry.high else ""


def readable(text):
    return safe_text.readable(text)


def fits(row, entry, key):
    """Whether an entry can stand in a row of this command."""
    if row.name == "source":
        return entry.is_sent()
    if row.name == "sink":
        return entry.is_taken()
    if is_of_pdos(key[0]):
        return row.name == "unparam"
    return entry.is_modelled and (row.name != "param" or entry.is_writable())


def users(project, node, key):
    """The messages that carry an entry of a node, in words."""
    sent = [f"sent in `{name}` at {place}" for name, message in sorted(project.messages.items()) if message.node == node
            for place, source in sorted(message.sources.items()) if source == key]
    taken = [f"taken from `{name}` at {place}" for name, message in sorted(project.messages.items())
             for (place, taker), sink in sorted(message.sinks.items()) if (taker, sink) == (node, key)]
    return sent + taken


def value_now(evidence, node, key):
    """The value of an entry of a node once it is configured, in words."""
    entry = evidence.device(node).entries[key]
    data = evidence.node(node).written.get(key)
    return value_text(entry.kind, values.default_of(entry, node) if data is None else data)


def described(evidence, node, key):
    """An entry of a node in Markdown."""
    entry = evidence.device(node).entries.get(key)
    if entry is None:
        return f"**{object_name(key)}** isn't in the data sheet of {evidence.node_name(node)}"
    mark = safe_text.markdown
    lines = [f"**{object_name(key)} {mark(entry.name)}**".replace(" **", "**"), "", type_text(entry)]
    lines += [f"limits: {mark(limits_text(entry))}"] if limits_text(entry) else []
    lines += [f"default: {mark(entry.default)}"] if entry.default else []
    lines += [f"given by the data sheet: {mark(entry.value)}"] if entry.value else []
    ways = [each for each, can in (("sent", entry.is_sent()), ("taken", entry.is_taken())) if can]
    lines.append("PDO: " + (" and ".join(ways) or "can't be mapped"))
    if entry.is_modelled:
        lines.append(f"at {evidence.node_name(node)} once it is configured: {mark(value_now(evidence, node, key))}")
    return "  \n".join(lines + users(evidence.project, node, key))
