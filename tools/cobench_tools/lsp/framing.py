"""Messages of JSON-RPC behind Content-Length headers.

python3-pylsp-jsonrpc of Debian reads and writes them where it is installed; elsewhere the lines here do.
"""
from __future__ import annotations

import importlib
import json
import logging
import threading
from typing import Any, BinaryIO, Callable, Iterator

LONGEST = 1 << 28       # bytes of a message at most: a document of 64 MiB, with what JSON makes of its marks


def library() -> Any:
    """The module of Debian's library that reads and writes messages, which says nothing by itself; None without it."""
    try:
        found = importlib.import_module("pylsp_jsonrpc.streams")
    except ImportError:
        return None
    logging.getLogger("pylsp_jsonrpc").addHandler(logging.NullHandler())
    logging.getLogger("pylsp_jsonrpc").propagate = False
    return found


streams = library()


def read_all(stream: BinaryIO, take: Callable[[Any], bool]) -> None:
    """Gives each message of a stream to `take`, until that says that there is no more to read or the stream ends."""
    if streams:
        reader = streams.JsonRpcStreamReader(stream)
        reader.listen(lambda message: None if take(message) else reader.close())
        return
    for message in messages_of(stream):
        if not take(message):
            return


def messages_of(stream: BinaryIO) -> Iterator[Any]:
    """The messages of a stream; what is no JSON is passed over."""
    while True:
        size = size_of(stream)
        if size is None:
            return
        text = stream.read(size)
        if len(text) < size:
            return
        try:
            yield json.loads(text)
        except ValueError:
            continue


def size_of(stream: BinaryIO) -> int | None:
    """The bytes of the next message by its headers, None where there is none any more."""
    size = None
    while True:
        line = stream.readline()
        if not line:
            return None
        name, _, value = line.strip().partition(b":")
        if name.lower() == b"content-length" and value.strip().isdigit() and len(value) < 12:
            size = int(value)
        if not line.strip() and size is not None:
            return size if size <= LONGEST else None


class Writer:
    """Writes messages, from several threads."""

    def __init__(self, stream: BinaryIO) -> None:
        self._stream, self._lock = stream, threading.Lock()
        self._writer = streams.JsonRpcStreamWriter(stream) if streams else None

    def write(self, message: dict[str, Any]) -> None:
        if self._writer:
            self._writer.write(message)
            return
        data = json.dumps(message).encode()
        with self._lock:
            try:
                self._stream.write(b"Content-Length: %d\r\n\r\n%s" % (len(data), data))
                self._stream.flush()
            except (OSError, ValueError):
                pass        # nobody reads any more: the end of the input says so too
