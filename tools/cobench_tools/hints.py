"""Why a command was refused, where it is one of the common slips."""
from . import tool, wrong_word as wrong
from .forms import FORMS, bad_syntax, form_of, wrong_word
from .likely import node_hint
from .limits import out_of_range
from .project import CONTROLLERS, Project


def truncated(command):
    """Hints on `9 Truncated`."""
    there = len(command.block or ())
    return f"the script ends after {there} of the {there + command.lacks} lines" if command.lacks else None


def list_of(names):
    return ", ".join(str(name) for name in list(names)[:8]) + (" .." if len(names) > 8 else "") if names else "none"


def limit(command, project):
    """Hints on `7 Limit`."""
    if command.name == b"eds":
        return "64 data sheets are there" if len(project.texts) >= 64 else "an EDS has at most 4,096 entries"
    return {b"param": "a node has at most 4,096 parameters",
            b"message": "a network has at most 1,024 messages"}.get(command.name)


def why_of_this_version(project, version):
    """What keeps a script from an older version, or None."""
    if version == 1 and project.mandatory:
        return f"mandatory: {list_of(sorted(project.mandatory))}"
    if version < 3 and project.controller is not None:
        return f"node {project.controller} has the manager's number, which it can in version 3 alone"
    receives = [name for name, message in sorted(project.messages.items()) if message.receives]
    if version < 3 and receives:
        return f"messages with a receive, which is of version 3: {list_of(receives)}"
    return "a time-period, which is of version 3: time-period 0 0 takes it away" if version < 3 and project.time else None


def named(command, project):
    """That a word is the name of a node where its number belongs, or None."""
    first, *rest = [tool.shown(word) for word in command.words]
    if first not in FORMS:
        return None
    wrong = ((kind, word) for kind, word in zip(form_of(first, rest), rest) if wrong_word(kind, word))
    return next((node_hint(kind, word, project) for kind, word in wrong), None)


class Hints:
    """Gives hints, over the project before each command and what became of the names that aren't there.

    gone   for each kind of thing and its name the command by which it isn't there: refused, or dropped
    cause  the refused command on which the refusal of the last one follows, None where there is none
    """

    MADE = ("node", "eds", "message", "event")

    def __init__(self):
        self.gone, self.cause = {}, None

    def note(self, command, is_accepted):
        """A command was accepted or refused: what it makes is there, or isn't."""
        words = [tool.shown(word) for word in command.words[:2]]
        what = words[0][5:] if words[0].startswith("drop-") else words[0]
        if what not in self.MADE or len(words) < 2:
            return
        key = what, words[1].lstrip("0")
        if is_accepted and what == words[0]:
            self.gone.pop(key, None)
        elif is_accepted or what == words[0]:
            self.gone[key] = command

    def missing(self, what, word, known, command):
        """That something isn't there, and where it was refused or dropped, or what is there."""
        before = self.gone.get((what, word.lstrip("0")))
        if not before:
            return f"{what} {word} isn't there; there are: {list_of(known)}"
        happened = "dropped" if before.name.startswith(b"drop-") else "refused"
        self.cause = before if happened == "refused" else None
        where = f"line {before.number}" if before.path == command.path else before.place
        return f"{what} {word} was {happened} in {where}"

    def unknown(self, command, project):
        first, *rest = [tool.shown(word) for word in command.words]
        for kind, word in zip(form_of(first, rest), rest):
            if kind == "EDS" or kind == "NAME" and first == "drop-eds":
                if word not in project.texts:
                    return self.missing("eds", word, sorted(project.texts), command)
            if kind == "MESSAGE" or kind == "NAME" and first == "drop-message":
                if word not in project.messages:
                    return self.missing("message", word, sorted(project.messages), command)
            if kind == "ID" and first not in ("node", "manager") or kind == "TO" and int(word):
                if int(word) == project.manager[0] and int(word) not in project.nodes:
                    return f"{int(word)} is the manager's number, and it is no node"
                if int(word) not in project.nodes:
                    return self.missing("node", word, sorted(project.nodes), command)
            if first == "drop-event" and int(word) not in project.events:
                return self.missing("event", word, sorted(project.events), command)
        return self.no_part(first, rest, project)

    def no_part(self, first, rest, project):
        """That a node has no such parameter, or a message no such source, sink or receive."""
        if first == "unparam" and (int(rest[0]), int(rest[1], 16), int(rest[2], 16)) not in project.params:
            return f"node {int(rest[0])} has no such parameter"
        if first == "unsource" and int(rest[1]) not in project.messages[rest[0]].sources:
            return "the message has no source there"
        if first == "unsink" and (int(rest[1]), int(rest[2])) not in project.messages[rest[0]].sinks:
            return "the message has no sink there of that node"
        if first == "unreceive" and int(rest[1]) not in project.messages[rest[0]].receives:
            return "the message has no receive of that node"
        return None

    def taken(self, command, project):
        first, *rest = [tool.shown(word) for word in command.words]
        is_old = project.version < CONTROLLERS
        if is_old and first == "manager" and int(rest[0]) in project.nodes:
            return f"{int(rest[0])} is the number of a node; in version 3 the manager can have it"
        if is_old and first == "node" and int(rest[0]) == project.manager[0]:
            return f"{int(rest[0])} is the number of the manager; in version 3 a node can have it"
        for node, (name, _) in project.nodes.items():
            if first == "node" and name == rest[1] and node != int(rest[0]):
                return f"node {node} has that name"
        return None

    def in_use(self, command, project):
        if command.name == b"version":
            return why_of_this_version(project, int(command.words[1]))
        word = tool.shown(command.words[1]) if len(command.words) > 1 else ""
        if command.name == b"drop-eds":
            nodes = [node for node, (_, eds) in sorted(project.nodes.items()) if eds == word]
            return f"used by: {list_of(nodes)}" if nodes else None
        return "; ".join(project.uses(int(word))[:4]) or None if command.name == b"drop-node" else None

    def why(self, command, project):
        """Why an edit would be refused, as far as the script shows, or None."""
        return (truncated(command) or named(command, project) or bad_syntax(command) or out_of_range(command, project)
                or self.unknown(command, project) or self.taken(command, project) or self.in_use(command, project))

    def of(self, command, reply, project):
        """A hint on a refused command, or None."""
        self.cause, number, syntax = None, int(reply.refused[0]), bad_syntax(command)
        if number == 2 or syntax:
            return named(command, project) or syntax if number == 2 else None
        if number in (3, 8):
            return out_of_range(command, project)
        if number == 4:
            return self.unknown(command, project)
        if number == 5:
            return self.taken(command, project)
        if number == 6:
            return self.in_use(command, project)
        if number == 7:
            return limit(command, project)
        return truncated(command) if number == 9 else None


class Refusal:
    """A refused command, the reply, as `4 Unknown`, a hint on why, or None, and the refused command behind it, or None.

    word  which of its words is wrong (wrong_word.py)
    """

    def __init__(self, command, reply, hint, cause=None, word=wrong.ALL):
        self.command, self.reply, self.hint, self.cause, self.word = command, reply, hint, cause, word

    @property
    def shown(self):
        return tool.shown(self.command.line.strip(b" \t"))

    def lines(self):
        """What tells of it: FILE:LINE with the reply and the command, and the hint."""
        first = f"{self.command.place}: refused {self.reply}: {self.shown}"
        return [first, f"    {self.hint}"] if self.hint else [first]


def refusals(pairs):
    """The refused ones of commands that have their replies."""
    if all(reply.is_accepted() for _, reply in pairs):
        return []
    project, hints, found = Project(), Hints(), []
    for command, reply in pairs:
        if reply.is_accepted():
            project.take(command)
        else:
            hint, word = hints.of(command, reply, project), wrong.place_of(command, reply, project)
            found.append(Refusal(command, reply.refused, hint, hints.cause, word))
        hints.note(command, reply.is_accepted())
    return found
