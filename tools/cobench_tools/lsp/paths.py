"""Files as the protocol names them: by URIs."""
from __future__ import annotations

import os
import urllib.parse

FILE = "file://"
SHEETS = ".eds", ".dcf"


def path_of(uri: str) -> str:
    """The path of a URI; of one that is no file's all of it."""
    parts = urllib.parse.urlsplit(uri)
    return urllib.parse.unquote(parts.path, errors="surrogateescape") if parts.scheme == "file" else uri


def uri_of(path: str) -> str:
    """The URI of a path."""
    return FILE + urllib.parse.quote(os.path.abspath(path), errors="surrogateescape")


def key_of(path: str) -> str:
    """What is the same for all names of a file."""
    return path if "\0" in path else os.path.realpath(path)


def is_sheet(path: str) -> bool:
    """Whether a file is a data sheet or a DCF by its name."""
    return os.path.splitext(path)[1].lower() in SHEETS
