"""Replies of a session, paired with the commands of its script."""
import io
import itertools
import re
from typing import BinaryIO, List, Optional, Sequence, Tuple

from . import tool
from .forms import bad_syntax
from .script import Command

# The bytes of replies at most: those to a script of 64 MiB that asks for many traces.
LONGEST = 1 << 30

REFUSED = re.compile(rb"refused ([1-9]) (Memory|Syntax|Range|Unknown|Taken|InUse|Limit|BadByte|Truncated)")
LINES = re.compile(rb"lines ([0-9]{1,9})")
FAULT = re.compile(rb"cobench: ([1-9] [A-Za-z]+)")


class Reply:
    """`ok`, `refused N NAME`, or `lines K` with its lines.

    number   its line among the replies, from 1
    refused  `N NAME`, or None
    lines    the lines of a query, or None
    """

    __slots__ = ("number", "refused", "lines")

    def __init__(self, number: int, refused: Optional[str] = None, lines: Optional[List[bytes]] = None) -> None:
        self.number, self.refused, self.lines = number, refused, lines

    def is_accepted(self) -> bool:
        return self.refused is None


class Session:
    """The replies of a session, whether they are cut off, and the fault that ended it, if it is told."""

    def __init__(self, replies: List[Reply], cut: Optional[str], fault: Optional[str]) -> None:
        self.replies, self.cut, self.fault = replies, cut, fault


def session_of(path: str, text: bytes) -> Session:
    """The replies that a text holds."""
    where, replies, number = tool.name_of(path), [], 0
    lines = io.BytesIO(text)
    for line in lines:
        number += 1
        if line == b"ok\n":
            replies.append(Reply(number))
            continue
        if not line.endswith(b"\n"):
            return Session(replies, f"{where}:{number}: the last line is cut", None)
        line = line.rstrip(b"\n").rstrip(b"\r")
        query, fault = LINES.fullmatch(line), FAULT.fullmatch(line)
        if query:
            answer, count = answer_of(lines, int(query.group(1)))
            if answer is None:
                return Session(replies, f"{where}:{number}: {count} of {int(query.group(1))} lines are there", None)
            replies.append(Reply(number, lines=answer))
            number += count
        elif fault and lines.tell() == len(text):
            return Session(replies, None, tool.shown(fault.group(1)))
        else:
            replies.append(edit_reply(where, number, line))
    return Session(replies, None, None)


def answer_of(lines: BinaryIO, count: int) -> Tuple[Optional[List[bytes]], int]:
    """The lines of an answer, None where it is cut; and how many of them are there."""
    answer = list(itertools.islice(lines, count))
    there = len(answer) - bool(answer and not answer[-1].endswith(b"\n"))
    return ([line.rstrip(b"\n").rstrip(b"\r") for line in answer] if there == count else None), there


def edit_reply(where: str, number: int, line: bytes) -> Reply:
    """The reply of a line that is `ok` or `refused N NAME`."""
    if line == b"ok":
        return Reply(number)
    refused = REFUSED.fullmatch(line)
    if not refused:
        raise tool.Fault(f"{where}:{number}: this is no reply: {tool.shown(line[:60])}")
    return Reply(number, refused=tool.shown(b" ".join(refused.groups())))


def read_text(path: str) -> bytes:
    """The bytes of replies, or of a trace."""
    return tool.read_text(path, LONGEST)


def read_session(path: str) -> Session:
    return session_of(path, read_text(path))


QUERIES = {b"dcf", b"cdcf", b"diag", b"trace", b"project"}


def answers(command: Command, reply: Reply) -> bool:
    """Whether a reply can be that to a command: lines to a query alone, and `ok` to an edit alone."""
    if reply.refused is not None:
        return True
    if command.is_comment() or command.takes_script():
        return False
    return (reply.lines is not None) == (command.name in QUERIES) and is_well_formed(command)


def is_well_formed(command: Command) -> bool:
    """Whether a command can be accepted by its form, so far as its words are known: those of a file may be others."""
    return command.file is not None or command.lacks > 0 or bad_syntax(command) is None


def agreement(commands: Sequence[Command], session: Session) -> int:
    """Of how many commands the form says whether they are refused with Syntax, as they are."""
    refused = [reply.refused == "2 Syntax" for reply in session.replies]
    return sum(is_refused == (bad_syntax(command) is not None) for command, is_refused in zip(commands, refused))


def pairs(path: str, commands: List[Command], raw: List[Command], session: Session) -> Tuple[List[Tuple[Command, Reply]], List[Command]]:
    """The commands of a script that have a reply, each with it, and those that have none.

    commands  those of the script after `expand`, which takes comments out and other scripts in
    raw       those of the script as it stands, each of which has a reply where it didn't go through `expand`
    """
    given, readings = len(session.replies), [commands]
    if len(raw) != len(commands) or any(command.takes_script() for command in raw):
        readings.append(raw)
    readings = [each for each in readings if len(each) >= given and all(map(answers, each, session.replies))]
    if len(readings) > 1:
        readings.sort(key=lambda each: (len(each) == given, agreement(each, session)), reverse=True)
    if not readings:
        raise of_different_sessions(path, commands, session)
    return list(zip(readings[0], session.replies)), readings[0][given:]


def of_different_sessions(path: str, commands: Sequence[Command], session: Session) -> tool.Fault:
    """The fault of replies that can't be those to a script."""
    for command, reply in zip(commands, session.replies):
        if not answers(command, reply):
            return tool.Fault(f"line {reply.number} of the replies can't be that to {command.place}: they are of "
                              "different sessions")
    return tool.Fault(f"{tool.name_of(path)} has {len(commands)} commands, and there are {len(session.replies)} replies: "
                      "they are of different sessions")
