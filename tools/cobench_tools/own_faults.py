"""Slips of cobtool itself: told in a line with their place, and as Python shows them where COBTOOL_DEBUG is set."""
import os
import traceback

from . import safe_text, tool


def is_debugging() -> bool:
    return bool(os.environ.get("COBTOOL_DEBUG"))


def words_of(error: BaseException) -> str:
    """What went wrong, and where: `KeyError in meaning.py:118: 'drives'`."""
    name, line, _, _ = traceback.extract_tb(error.__traceback__)[-1]
    return safe_text.readable(f"{type(error).__name__} in {os.path.basename(name)}:{line}: {error}".splitlines()[0])


def show(error: BaseException) -> None:
    """Shows where a slip is that doesn't end the command, to those who look for it."""
    if is_debugging():
        tool.warn("".join(traceback.format_exception(type(error), error, error.__traceback__)).rstrip("\n"))
