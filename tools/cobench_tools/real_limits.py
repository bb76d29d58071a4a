"""Values of REAL32 and REAL64 that lie outside the limits of their entries: cobench doesn't ask these limits, and a device may."""
from . import reals, values
from .data_types import REALS, type_name
from .findings import Finding
from .safe_text import shortened

REAL_LIMITS = "real-limits"


def of(evidence):
    """The findings of a session: each value that a configured node is given and that its device may refuse."""
    return [finding(evidence, node, key, beyond) for node in sorted(evidence.project.nodes)
            for key, data in evidence.node(node).written.items()
            for beyond in [beyond_of(evidence.device(node).entries.get(key), node, data)] if beyond]


def beyond_of(entry, node, data):
    """Which limit the value of a REAL passes: the value, in words on which side, and the key of the limit; None for none."""
    if entry is None or entry.kind not in REALS or not entry.is_modelled:
        return None
    number = reals.number_of(entry.kind, data)
    low, high = (values.measure_of(entry.kind, text, node) for text in (entry.low, entry.high))
    if low is not None and number < low:
        return reals.text_of(entry.kind, data), f"below the LowLimit {shortened(entry.low)}", "lowlimit"
    if high is not None and number > high:
        return reals.text_of(entry.kind, data), f"above the HighLimit {shortened(entry.high)}", "highlimit"
    return None


def finding(evidence, node, key, beyond):
    """The finding of a value, at the line that gives it."""
    (text, where, limit), entry = beyond, evidence.device(node).entries[key]
    place = evidence.sheet_place(node, entry.line_of(limit))
    words = (f"{evidence.entry_name(node, key)}: {text} is {where} ({place}), which cobench doesn't ask of "
             f"{type_name(entry.kind)}: the device may refuse it")
    return Finding(evidence.value_place(node, key), f"{REAL_LIMITS} {node} {key[0]:04X} {key[1]:02X}", f"node {node}",
                   evidence.node_name(node), words)
