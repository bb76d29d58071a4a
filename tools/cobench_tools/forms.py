"""The forms of commands, and why a line isn't of one: the causes of `2 Syntax` (docs/rules/commands.md)."""
import difflib
import re

from . import script, tool
from .likely import number_hint

# The words behind the first one, by command. An event's third word decides on the rest.
FORMS = {
    "version": "VERSION", "bitrate": "RATE", "horizon": "US", "manager": "ID SYNC_US HB_MS TIMEOUT_MS",
    "time-period": "US DAYS", "sync-counter": "COUNTER",
    "eds": "NAME LINES", "drop-eds": "NAME", "node": "ID NAME EDS", "need": "ID NEED", "drop-node": "ID",
    "param": "ID INDEX SUB TEXT", "unparam": "ID INDEX SUB",
    "message": "NAME ID TPDO TYPE INHIBIT EVENT COB", "start": "MESSAGE START", "drop-message": "NAME",
    "source": "MESSAGE POS INDEX SUB", "unsource": "MESSAGE POS",
    "sink": "MESSAGE POS ID INDEX SUB", "unsink": "MESSAGE POS ID",
    "receive": "MESSAGE ID RPDO MS", "unreceive": "MESSAGE ID",
    "event": "K TIME set ID INDEX SUB TEXT", "drop-event": "K",
    "dcf": "ID", "cdcf": "ID", "diag": "", "trace": "", "project": "",
}
EVENTS = {"set": FORMS["event"], "power": "K TIME power ID ON_OFF", "nmt": "K TIME nmt CMD TO"}

NAME = re.compile("[A-Za-z0-9_]{1,32}")
NUMBER = re.compile("[0-9]{1,10}")
NAMES = {"NAME", "EDS", "MESSAGE"}
DIGITS = {"INDEX": 4, "SUB": 2, "COB": 3}
CHOICES = {"ON_OFF": ("on", "off"), "NEED": ("mandatory", "optional")}
MOST_TEXT = 4000

CONTROL = re.compile(rb"[\x00-\x08\x0a-\x1f]")
BYTE_ORDER_MARK = b"\xef\xbb\xbf"
LINE_OF_EDS = re.compile(r"\[.*\]|[^ \t=]+=")


def form_of(name, words):
    """The form of a command with these words behind its name."""
    if name == "event" and len(words) > 2:
        return EVENTS.get(words[2], FORMS["event"]).split()
    return FORMS[name].split()


def usage(name, form):
    """How a command is written."""
    words = " ".join(form).replace("ON_OFF", "on|off").replace("TO", "ID").replace("NEED", "mandatory|optional")
    return f"{name} {words}".strip()


def begins_comment(word):
    return word.startswith(("#", ";", "//"))


def counted(number, what):
    """A number of things: `1 word`, `3 words`, `no words`."""
    return f"{number or 'no'} {what}{'' if number == 1 else 's'}"


def bad_syntax(command):
    """Why a command is no command by its form, or None."""
    words = [tool.shown(word) for word in command.words]
    why = bad_line(command.line)
    if why or words[0] not in FORMS:
        return why or unknown_word(words[0], command.line)
    return bad_file(command, words[1:]) if command.file is not None else bad_words(command, words[0], words[1:])


def bad_line(line):
    """Why a line can be no command, or None."""
    if len(line) > script.LONGEST_LINE:
        return f"the line has {len(line):,} bytes, and a line has at most {script.LONGEST_LINE:,}"
    control = CONTROL.search(line)
    return f"the line has a byte {control.group()[0]:02X}h" if control else None


# A first word that is no command.

def unknown_word(first, line):
    """What a first word that no command has may be meant for."""
    return no_command_line(first, line) or other_word(first.lower())


def no_command_line(first, line):
    """What a line that is no command is, or None."""
    if first.startswith("#"):
        return "cobench has no comments: give it the script through `cobtool expand`, which takes them out"
    if begins_comment(first):
        return "a comment begins with #, and `cobtool expand` takes it out"
    if first.startswith("<"):
        return "cobench reads no files: give it the script through `cobtool expand`, which takes the script in"
    if line.startswith(BYTE_ORDER_MARK):
        return "the script begins with a byte order mark: save it without"
    if LINE_OF_EDS.match(first):
        return "a line of an EDS: the number of lines at its eds command is too small (`cobtool eds` counts them)"
    return None


def other_word(lower):
    """Which command a word may be meant for."""
    if lower in FORMS:
        return f"commands are in lower case: {lower}"
    if lower in ("help", "?", "man"):
        return "no such command; `cobench --help` lists them"
    if lower in ("quit", "exit", "bye", "end"):
        return "no such command; the end of the input ends a session (Ctrl-D where it is typed)"
    near = difflib.get_close_matches(lower, FORMS, 1)
    return f"no such command; is it {near[0]}?" if near else "no such command"


# The words behind a command.

def bad_file(command, rest):
    """Why an `eds NAME <FILE` is refused."""
    if command.block is not None:
        return wrong_word("NAME", rest[0])
    return "cobench reads no files: give it the script through `cobtool expand`, which takes the file in"


def bad_words(command, first, rest):
    """Why the words behind a command are wrong, or None."""
    form = form_of(first, rest)
    return misplaced(first, rest, form) or first_wrong(form, rest) or wrong_count(first, rest, form) or too_much(command, form)


def has_text(form):
    return form[-1:] == ["TEXT"]


def misplaced(first, rest, form):
    """That a word isn't where it stands: a file, a kind of event, a comment; or None."""
    if first == "eds" and len(rest) == 2 and re.search("[^0-9-]", rest[1]) and not begins_comment(rest[1]):
        file = rest[1].strip("\"'")
        return f"LINES is a number; a file is taken in by `eds {rest[0]} <{file}` and `cobtool expand`"
    if first == "event" and len(rest) > 2 and rest[2] not in EVENTS:
        return f"an event is one of set, power and nmt, not {rest[2]}"
    if len(rest) > len(form) and not has_text(form) and begins_comment(rest[len(form)]):
        return "a comment can't stand behind a command: give it a line of its own"
    return None


def first_wrong(form, rest):
    """What is wrong with the first word that isn't of its form, or None."""
    return next(filter(None, (wrong_word(kind, word) for kind, word in zip(form, rest))), None)


def wrong_count(first, rest, form):
    """That there are too few or too many words, or None."""
    if len(rest) == len(form) or len(rest) > len(form) and has_text(form):
        return None
    return f"{counted(len(rest), 'word')} behind {first}, where it has {len(form) or 'none'}: {usage(first, form)}"


def too_much(command, form):
    """That a text is too long, or a block has too many lines; or None."""
    if has_text(form) and len(command.text_from(len(form))) > MOST_TEXT:
        return f"TEXT has at most {MOST_TEXT:,} bytes"
    return f"LINES is at most {script.MOST_LINES:,}" if command.name == b"eds" and command.block is None else None


def wrong_word(kind, word):
    """What is wrong with the form of a word, or None."""
    if kind in DIGITS:
        return wrong_digits(kind, word)
    if kind in NAMES:
        return None if NAME.fullmatch(word) else f"{kind} is a name of 1 to 32 of A-Z a-z 0-9 _, not {word}"
    if kind in CHOICES:
        return None if word in CHOICES[kind] else f"{' or '.join(CHOICES[kind])}, not {word}"
    return wrong_number(kind, word) if kind.isupper() and kind != "TEXT" else None


def wrong_digits(kind, word):
    """What is wrong with a hexadecimal number, or None."""
    most = DIGITS[kind]
    bare = re.fullmatch("0[xX]([0-9A-Fa-f]+)|([0-9A-Fa-f]+)[hH]", word)
    if bare:
        return f"{kind} is hexadecimal without 0x: {bare.group(1) or bare.group(2)}"
    return None if re.fullmatch("[0-9A-Fa-f]{1,%d}" % most, word) else f"{kind} is 1 to {most} hexadecimal digits, not {word}"


def wrong_number(kind, word):
    """What is wrong with a decimal number, or None."""
    if NUMBER.fullmatch(word):
        return None
    if word.startswith("-"):
        return f"{kind} has no sign: {word}"
    hint = number_hint(kind, word)
    if hint:
        return hint
    digits = "" if re.match("0[xX]", word) else " of at most 10 digits"
    return f"{kind} is a decimal number{digits}, not {word}"
