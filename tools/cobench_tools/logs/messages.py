"""Logs that only python-can reads, as BLF and MF4, by its readers where it is installed."""
import importlib
import itertools

from .. import tool
from .rows import ERROR, EXTENDED, FLEXIBLE, REMOTE, Aside, key_of

# How the files begin: what they are, the reader of python-can, and what it needs besides.
KINDS = {b"LOGG": ("BLF of Vector", "BLFReader", ""), b"MDF ": ("MF4 of ASAM", "MF4Reader", " asammdf"),
         b"SQLite format 3\0": ("a database of python-can", "SqliteReader", "")}
AT_ONCE = 1_000


def kind_of(head):
    """What a file is by its first bytes, None where python-can isn't wanted for it."""
    return next((kind for magic, kind in KINDS.items() if head.startswith(magic)), None)


class Messages:
    """The frames of a file that python-can reads; the number of a frame stands for its line.

    head  the first of them
    """

    name, title, has_times = "python-can", "what python-can reads", True

    def __init__(self, path, kind):
        self.path, self.kind, self.resolution = path, kind, 1
        self.messages = iter(self._reader())
        self.head = self.some()

    def _reader(self):
        what, reader, besides = self.kind
        try:
            return getattr(importlib.import_module("can"), reader)(self.path)
        except (ImportError, AttributeError, NotImplementedError):
            raise tool.Fault(f"{self.path}: this is {what}, which python-can reads, and that isn't installed for this Python: "
                             f"`pip install python-can{besides}`, or save it as ASC") from None
        except Exception as error:
            raise self._fault(error) from None

    def _fault(self, error):
        return tool.Fault(f"{self.path}: python-can can't read it: {type(error).__name__} {error}".rstrip())

    def some(self):
        """The next of its frames, as the readers of lines give them."""
        try:
            return [found_of(message) for message in itertools.islice(self.messages, AT_ONCE)]
        except Exception as error:
            raise self._fault(error) from None


def found_of(message):
    """A message as a row, or what it is besides."""
    time, channel = round(message.timestamp * 1_000_000), str(message.channel)
    if message.is_error_frame:
        return Aside(ERROR, time, channel)
    if message.is_remote_frame:
        return Aside(REMOTE, time, channel, message.arbitration_id)
    if message.is_fd or message.is_extended_id:
        return Aside(FLEXIBLE if message.is_fd else EXTENDED, time, channel, message.arbitration_id, bytes(message.data).hex().upper())
    return time, channel, key_of(message.arbitration_id), bytes(message.data).hex().upper()
