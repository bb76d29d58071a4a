"""Queries of a script that are never refused and change nothing: they aren't asked where the page asks its own."""
from .. import replies

NAMES = {b"trace", b"diag", b"project"}


def is_quiet(command):
    """Whether a command is such a query."""
    return command.name in NAMES and len(command.words) == 1


def pairs_of(commands, given):
    """The commands with the replies that were given to those that were asked; the others answer nothing."""
    return [(command, replies.Reply(0, lines=[]) if is_quiet(command) else next(given)) for command in commands]
