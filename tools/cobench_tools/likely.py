"""What a user may have meant by a word that names nothing: a file that isn't there, a name or a unit for a number."""
import os
import re

# How long a word's unit is, in microseconds, and the words for it; and the units that people write behind numbers.
MICROSECONDS, TENTHS, MILLISECONDS = (1, "microseconds"), (100, "multiples of 100 microseconds"), (1000, "milliseconds")
TIMES = {
    "US": MICROSECONDS, "TIME": MICROSECONDS, "SYNC_US": MICROSECONDS, "INHIBIT": TENTHS,
    "HB_MS": MILLISECONDS, "TIMEOUT_MS": MILLISECONDS, "EVENT": MILLISECONDS, "MS": MILLISECONDS,
}
UNITS = {"us": 1, "ms": 1000, "s": 1_000_000}
SERVICES = {
    "start": 1, "stop": 2, "preop": 128, "pre-operational": 128, "reset": 129, "reset-node": 129,
    "reset-communication": 130, "reset-comm": 130,
}


def file_hint(path, file):
    """What a script may mean by a file that isn't there: a text to be put behind the fault, "" for nothing."""
    if os.path.exists(path):
        return ""
    bare = file.strip("\"'")
    if bare != file:
        return f"; a file's name has no quotation marks: <{bare}"
    if "\\" in file:
        return f"; folders are told apart by /: <{file.replace(chr(92), '/')}"
    near = other_case(path)
    return f"; there is {near}, and upper and lower case differ" if near else ""


def other_case(path):
    """The name of a file of the same folder that differs in case alone, else None."""
    folder, name = os.path.split(path)
    try:
        names = os.listdir(folder or ".")
    except OSError:
        return None
    return next((each for each in sorted(names) if each.lower() == name.lower()), None)


def number_hint(kind, word):
    """The number that a word with a unit or of an NMT service stands for, in the unit of its place, else None."""
    if kind == "CMD":
        number = SERVICES.get(word.lower().replace("_", "-"))
        return f"an NMT command is a number: {word} is {number}" if number else None
    found = re.fullmatch(r"([0-9]{1,9})(?:\.([0-9]{1,6}))?(us|ms|s)?", word, re.IGNORECASE)
    if kind not in TIMES or not found:
        return None
    length, name = TIMES[kind]
    whole, part, unit = found.groups()
    if not unit:
        return f"{kind} is in whole {name}, not {word}"
    number = int(whole + (part or "")) * UNITS[unit.lower()]
    parts = length * 10 ** len(part or "")
    return f"{kind} is in whole {name}, not {word}" if number % parts else f"{kind} is in {name}: {number // parts}"


def node_hint(kind, word, project):
    """The number of the node that a word names where a number belongs, else None."""
    numbers = [number for number, (name, _) in project.nodes.items() if name == word]
    return f"ID is a number: {word} is node {numbers[0]}" if kind in ("ID", "TO") and numbers else None
