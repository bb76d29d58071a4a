"""Which word of a refused command is the wrong one, for editors that mark it."""
from . import tool
from .forms import FORMS, form_of, wrong_word
from .limits import beyond, not_allowed
from .project import CONTROLLERS

ALL = None      # no one word of it


def place_of(command, reply, project):
    """The place of the wrong word among the words of a refused command, from 0 on, ALL where it is no one word.

    A word that is missing has the place behind the last one.

    project  what the commands before it have made
    """
    first, *rest = [tool.shown(word) for word in command.words]
    if first not in FORMS:
        return 0
    form = form_of(first, rest)
    pairs = list(zip(form, rest))
    judge = {"2": of_form, "3": of_range, "4": of_name, "5": of_taken, "6": of_use}.get(reply.refused[0], of_nothing)
    place = next((number for number, (kind, word) in enumerate(pairs, 1)
                  if wrong_word(kind, word) or judge(first, kind, word, project)), ALL)
    is_count = reply.refused[0] == "2" and len(rest) != len(form)
    return len(pairs) + 1 if place is ALL and is_count else place


def of_nothing(first, kind, word, project):
    return False


def of_form(first, kind, word, project):
    """Whether a word isn't the one of its form; numbers and names are judged before."""
    return first == "event" and kind in ("set", "power", "nmt") and word != kind


def of_range(first, kind, word, project):
    """Whether a number isn't within its limits."""
    return bool(beyond(kind, word) or not_allowed(kind, word, first))


def of_name(first, kind, word, project):
    """Whether a word names something that isn't there."""
    if kind == "EDS" or kind == "NAME" and first == "drop-eds":
        return word not in project.texts
    if kind == "MESSAGE" or kind == "NAME" and first == "drop-message":
        return word not in project.messages
    if kind == "ID" and first not in ("node", "manager") or kind == "TO" and int(word):
        return int(word) not in project.nodes
    return first == "drop-event" and int(word) not in project.events


def of_taken(first, kind, word, project):
    """Whether a word is that of another part."""
    if kind == "NAME":
        return any(name == word for name, _ in project.nodes.values())
    if kind != "ID" or project.version >= CONTROLLERS:
        return False
    return int(word) == project.manager[0] or first == "manager" and int(word) in project.nodes


def of_use(first, kind, word, project):
    """Whether a word names what is still used."""
    return kind in ("NAME", "ID", "VERSION")
