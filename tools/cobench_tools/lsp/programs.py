"""The cobenches behind an open script, for which what is as it was costs nothing: a data sheet is sent whole once."""
from __future__ import annotations

import hashlib
from typing import Any, Dict, List, Tuple

from ..live.programs import Made, Programs
from ..script import Command

LONG = 100      # lines of a data sheet from which on another stands for it
MOST = 8        # so many texts of one name are known


class Asked(Programs):
    """One that stays open, and one that works out which project the next state makes.

    The text of a data sheet decides whether its own `eds` is accepted, and no other command (docs/rules/commands.md).
    So one that was accepted before is sent to the second cobench as a text of one line, its digest, and put back into
    the project that it prints. The open one has it whole, and its project has to be the same.
    """

    def __init__(self, words: List[str], children: Any) -> None:
        super().__init__(words, children)
        self.is_long = True         # the run isn't asked for with the rest
        self._known: Dict[bytes, List[Tuple[List[bytes], bytes, bytes]]] = {}

    def made_by(self, commands: List[Command]) -> Tuple[List[Any], Made]:
        """The replies to some commands, and the project that they make."""
        short = [self._short(command) for command in commands]
        replies, made = self.apart([text for text, _ in short])
        whole = {text: printed for text, printed in short if printed}
        items = {key: whole.get(text, text) for key, text in made.items.items()}
        self._learn(commands, replies, items)
        return replies, made_of(items) if whole else made

    def _short(self, command: Command) -> Tuple[bytes, bytes]:
        """The text of a command, and what it stands for where that is a long data sheet that is known, else nothing."""
        block = command.block
        if command.name != b"eds" or not block or len(block) < LONG or command.lacks:
            return command.text(), b""
        known = self._known.get(command.words[1], [])
        found = next(((short, printed) for lines, short, printed in known if lines is block or lines == block), None)
        return found or (command.text(), b"")

    def _learn(self, commands: List[Command], replies: List[Any], items: Dict[Any, bytes]) -> None:
        """Keeps the data sheets that were accepted, as the project has them."""
        last = {command.words[1]: command for command, reply in zip(commands, replies)
                if command.name == b"eds" and command.block and reply.is_accepted()}
        for name, command in last.items():
            printed, block = items.get((b"eds", name)), command.block or []
            if printed and len(block) >= LONG and not self._short(command)[1]:
                short = b"eds %s 1\n;%s\n" % (name, hashlib.sha256(printed).hexdigest().encode())
                self._known[name] = [*self._known.get(name, [])[-MOST:], (block, short, printed)]

    def answers(self) -> Dict[str, List[bytes]]:
        """The lines that the open one answers to all queries but `trace`."""
        for query in self._asked:
            self._is_other(query)
        queries = [b"diag", *self._of_nodes(b"cdcf"), *self._of_nodes(b"dcf")]
        return {query.decode(): self._replies[query].lines for query in queries}

    def _of_nodes(self, name: bytes) -> List[bytes]:
        return [name + b" " + node for node in self.made.nodes()]

    def trace(self) -> bytes:
        """The text of the run."""
        self.opened.send(b"trace\n", 1)
        return self.opened.take_text()


def made_of(items: Dict[Any, bytes]) -> Made:
    """The project of some commands by what they set."""
    made, body = Made.__new__(Made), b"".join(items.values())
    made.items, made.reply = items, b"lines %d\n" % body.count(b"\n") + body
    return made
