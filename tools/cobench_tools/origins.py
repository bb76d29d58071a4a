"""Which command of a script last made each part of its project."""
import functools

from .digits import decimal, hexadecimal
from .script import MOST_KNOWN, shown_words_in

# By command the words that say which part it makes, each with how it is read.
PARTS = {
    "manager": (), "time-period": (), "sync-counter": (), "horizon": (), "eds": (str,), "node": (decimal,),
    "param": (decimal, hexadecimal, hexadecimal), "event": (decimal,), "message": (str,), "start": (str,),
    "source": (str, decimal), "sink": (str, decimal, decimal), "receive": (str, decimal),
}


@functools.lru_cache(maxsize=MOST_KNOWN)
def part_of(line):
    """The part that the command of a line makes, as `("param", 5, 0x1017, 0)`, or None."""
    words = shown_words_in(line)[:4]
    reads = PARTS.get(words[0])
    return None if reads is None else (words[0], *(read(word) for read, word in zip(reads, words[1:])))


class Origins:
    """The accepted commands that made the parts of a project."""

    def __init__(self, pairs):
        self._commands = {part_of(command.line): command for command, reply in pairs if reply.is_accepted()}

    def command(self, *part):
        """The command that last made a part, None where none did."""
        return self._commands.get(part)

    def place(self, *part):
        """FILE:LINE of that command, which has to be there."""
        return self._commands[part].place

    def sheet_place(self, eds, line):
        """FILE:LINE of a line of a data sheet."""
        return self._commands["eds", eds].block_place(line)
