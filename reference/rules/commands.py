"""The forms and limits of commands: docs/rules/commands.md."""
import re
from typing import Callable, Dict, List, NamedTuple, Tuple
from .faults import RANGE, SYNTAX, TRUNCATED, refuse_unless
from .ini_text import LONGEST_LINE, content_of
from .write_check import OBJECTS_OF_PDOS

MOST_LINES = 65_536
BLANK_RUN, DECIMAL = re.compile(rb"[ \t]+"), re.compile(rb"[0-9]{1,10}")

class Command(NamedTuple):
    """An edit with its arguments, or a query."""
    word: bytes
    arguments: Tuple

class Form(NamedTuple):
    """How a word is spelled, what it says, and which of these are allowed."""
    spelling: "re.Pattern[bytes]"
    meaning: Callable
    is_allowed: Callable = lambda value: True
    table: str = ""            # of the project, which has to have it

def number(low, high, *others):
    return Form(DECIMAL, int, lambda value: low <= value <= high or value in others)

def number_of(*allowed):
    return Form(DECIMAL, int, lambda value: value in allowed)

def hexadecimal(digits, is_allowed=lambda value: True):
    return Form(re.compile(rb"[0-9A-Fa-f]{1,%d}" % digits), lambda text: int(text, 16), is_allowed)

def text(spelling):
    return Form(re.compile(spelling, re.S), bytes)

ID, POSITION, WORD, K, TIME = number(1, 127), number(1, 64), number(0, 65_535), number(1, 10_000), number(0, 10_000_000)
PERIOD = number(1_000, 10_000_000, 0)
INDEX, SUB, COB_ID = hexadecimal(4), hexadecimal(2), hexadecimal(3, lambda value: value <= 0x7FF)
OWN_INDEX = hexadecimal(4, lambda value: value not in OBJECTS_OF_PDOS)
NAME, TEXT = text(rb"[A-Za-z0-9_]{1,32}"), text(rb".{1,4000}")
NODE, EVENT = ID._replace(table="nodes"), K._replace(table="events")
EDS, MESSAGE = NAME._replace(table="texts"), NAME._replace(table="messages")

FORMS: Dict[bytes, List[Form]] = {
    b"version": [number(1, 3)],
    b"bitrate": [number_of(10, 20, 50, 125, 250, 500, 1000)],
    b"horizon": [TIME],
    b"manager": [ID, PERIOD, WORD, number(1, 65_535)],
    b"time-period": [PERIOD, WORD],
    b"sync-counter": [number(2, 240, 0)],
    b"drop-eds": [EDS],
    b"node": [ID, NAME, EDS],
    b"need": [NODE, text(rb"mandatory|optional")],
    b"drop-node": [NODE],
    b"param": [NODE, OWN_INDEX, SUB, TEXT],
    b"unparam": [ID, INDEX, SUB],
    b"message": [NAME, NODE, number(1, 512), number(0, 255), WORD, WORD, COB_ID],
    b"start": [MESSAGE, number(0, 240)],
    b"drop-message": [MESSAGE],
    b"source": [MESSAGE, POSITION, INDEX, SUB],
    b"unsource": [NAME, POSITION],
    b"sink": [MESSAGE, POSITION, NODE, INDEX, SUB],
    b"unsink": [NAME, POSITION, ID],
    b"receive": [MESSAGE, NODE, number(0, 512), WORD],
    b"unreceive": [NAME, ID],
    b"event set": [K, TIME, text(rb"set"), ID, OWN_INDEX, SUB, TEXT],
    b"event power": [K, TIME, text(rb"power"), ID, text(rb"on|off")],
    b"event nmt": [K, TIME, text(rb"nmt"), number_of(1, 2, 128, 129, 130), number(0, 127)],
    b"drop-event": [EVENT],
    b"dcf": [ID], b"cdcf": [ID], b"diag": [], b"trace": [], b"project": [],
}
QUERIES = (b"dcf", b"cdcf", b"diag", b"trace", b"project")

def words_of(line, at_most=0):
    """The words of a line; with a number the last of so many is the rest of the line."""
    line = line.strip(b" \t")
    return BLANK_RUN.split(line, at_most - 1 if at_most else 0) if line else []

def is_bad_line(line):
    return len(line) > LONGEST_LINE or any(byte < 0x20 and byte != 0x09 for byte in line)

def block_lines(line):
    """How many lines an `eds` line takes, else None."""
    words = words_of(line)
    takes_block = len(words) == 3 and words[0] == b"eds" and DECIMAL.fullmatch(words[2]) and int(words[2]) <= MOST_LINES
    return int(words[2]) if takes_block else None

def command_of(line):
    """The command of a line that takes no block. The forms of all words are judged before any limit."""
    words = words_of(line)
    refuse_unless(words and not is_bad_line(line), SYNTAX)
    forms = FORMS.get(b" ".join([words[0], *words[3:4]]) if words[0] == b"event" else words[0])
    refuse_unless(forms is not None, SYNTAX)
    first, *words = words_of(line, len(forms) + 1 if TEXT in forms else 0)
    refuse_unless(len(words) == len(forms), SYNTAX)
    refuse_unless(all(form.spelling.fullmatch(word) for form, word in zip(forms, words)), SYNTAX)
    values = tuple(form.meaning(word) for form, word in zip(forms, words))
    refuse_unless(all(form.is_allowed(value) for form, value in zip(forms, values)), RANGE)
    return Command(first, values)

def eds_command(line, lines, is_cut):
    """The command of an `eds` line with its block; is_cut: the input ended inside it."""
    refuse_unless(not is_cut, TRUNCATED)
    name = words_of(line)[1]
    refuse_unless(not is_bad_line(line) and NAME.spelling.fullmatch(name), SYNTAX)
    return Command(b"eds", (name, lines, content_of(b"".join(each + b"\n" for each in lines))))
