"""The limits of numbers in commands, and which one a command passes: the causes of `3 Range` (docs/rules/commands.md)."""
from . import script, tool
from .forms import form_of
from .project import RATES, SERVICES

LEAST_PERIOD = 1000

# The least and the greatest number of each kind of word.
LIMITS = {
    "ID": (1, 127), "TO": (0, 127), "POS": (1, 64), "TPDO": (1, 512), "TYPE": (0, 255), "INHIBIT": (0, 65535),
    "EVENT": (0, 65535), "HB_MS": (0, 65535), "TIMEOUT_MS": (1, 65535), "US": (0, 10_000_000), "K": (1, 10_000),
    "TIME": (0, 10_000_000), "SYNC_US": (0, 10_000_000), "VERSION": (1, 3), "COUNTER": (0, 240), "START": (0, 240),
    "RPDO": (0, 512), "MS": (0, 65535), "DAYS": (0, 65535),
}


def out_of_range(command, project):
    """Which limit a command of the right form passes, or None."""
    first, *rest = [tool.shown(word) for word in command.words]
    wrong = (beyond(kind, word) or not_allowed(kind, word, first) for kind, word in zip(form_of(first, rest), rest))
    return next(filter(None, wrong), None) or out_of_place(command, project)


def beyond(kind, word):
    """That a number is below its least one, or above its greatest; or None."""
    if kind not in LIMITS:
        return None
    low, high = LIMITS[kind]
    return None if low <= int(word) <= high else f"{'ID' if kind == 'TO' else kind} is {low} to {high:,}, not {int(word):,}"


def not_allowed(kind, word, first):
    """That a number isn't one of those that are allowed, or None."""
    is_period = kind == "SYNC_US" or kind == "US" and first == "time-period"
    if is_period and 0 < int(word) < LEAST_PERIOD:
        return f"{kind} is 0 or at least {LEAST_PERIOD:,} microseconds, not {int(word)}"
    if kind == "COUNTER" and int(word) == 1:
        return "COUNTER is 0 or 2 to 240, not 1"
    if kind == "COB" and int(word, 16) > 0x7FF:
        return f"COB is at most 7FF, not {word}"
    if kind == "CMD" and int(word) not in SERVICES:
        return f"an NMT command is 1, 2, 128, 129 or 130, not {int(word)}"
    if kind == "RATE" and int(word) not in RATES:
        return f"a bit rate is {', '.join(map(str, RATES[:-1]))} or {RATES[-1]} kbit/s"
    if kind == "INDEX" and first in ("param", "event") and 0x1400 <= int(word, 16) <= 0x1BFF:
        return "the objects 1400h to 1BFFh of PDOs come from messages: message, source, sink"
    return None


def out_of_place(command, project):
    """That a command is none of this version, or its lines are no EDS; or None."""
    if command.name == b"need" and project.version == 1:
        return "mandatory nodes are of version 2: the command `version 2` comes first"
    if command.name in (b"receive", b"unreceive", b"time-period") and project.version < 3:
        return f"{command.name.decode()} is of version 3: the command `version 3` comes first"
    return script.why_no_eds(b"".join(line + b"\n" for line in command.block or ())) if command.name == b"eds" else None
