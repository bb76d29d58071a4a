"""What an export wrote into its folder: `export.json`, by which the files can be told from those of another one."""
import hashlib
import json
import os
import re
from typing import Dict, NamedTuple, Optional, Tuple

from . import VERSION, tool

NAME = "export.json"
LONGEST = 1 << 20       # bytes; 127 nodes take less than a tenth
NODE_FILE = re.compile(r"[0-9]{1,3}_[A-Za-z0-9_]{1,32}(\.dcf|\.bin|_master\.dcf)")
OTHERS = ("diagnostics.txt", "trace.txt", "trace.log")
DIGEST = re.compile(r"[0-9a-f]{64}")

Digests = Dict[str, str]


class Damaged(Exception):
    """The file isn't as an export writes it."""


class Source(NamedTuple):
    """What an export is made of: the script's name and digest, and the version of cobench, None where it says none."""

    script: str
    digest: str
    cobench: Optional[str]


class Manifest(NamedTuple):
    """What `export.json` says: the digest of each file, and that of the script.

    before  the digests of the files that stood there before, while the export isn't complete, else None
    """

    script: str
    files: Digests
    before: Optional[Digests]


def digest_of(data: bytes) -> str:
    return hashlib.sha256(data).hexdigest()


def is_name(name: str) -> bool:
    """Whether an export writes files of this name."""
    return name in OTHERS or bool(NODE_FILE.fullmatch(name))


def text_of(source: Source, files: Dict[str, bytes], before: Optional[Digests] = None) -> bytes:
    """The manifest of an export: complete, or begun where `before` are the files that it replaces."""
    content = {"cobtool": VERSION, "cobench": source.cobench,
               "script": {"name": source.script, "sha256": source.digest}, "complete": before is None,
               "files": {name: digest_of(data) for name, data in sorted(files.items())}}
    return json.dumps(content if before is None else {**content, "before": before}, indent=1).encode() + b"\n"


def digests_in(found: object) -> Digests:
    """The digests that a part of a manifest has."""
    if not isinstance(found, dict) or not all(map(is_entry, found.items())):
        raise Damaged
    return found


def is_entry(entry: Tuple[str, object]) -> bool:
    """Whether these are the name and the digest of a file of an export."""
    name, digest = entry
    return is_name(name) and isinstance(digest, str) and bool(DIGEST.fullmatch(digest))


def taken_from(data: bytes) -> Manifest:
    """The manifest that these bytes are."""
    try:
        content = json.loads(data.decode())
        script, is_complete = content["script"]["sha256"], content["complete"]
        files, before = digests_in(content["files"]), None if is_complete else digests_in(content["before"])
    except (ValueError, TypeError, KeyError, RecursionError):
        raise Damaged from None
    if not isinstance(script, str):
        raise Damaged
    return Manifest(script, files, before)


def read(folder: str) -> Optional[Manifest]:
    """The manifest of a folder, None where it has none."""
    data = content_of(folder, NAME, LONGEST)
    return None if data is None else taken_from(data)


def content_of(folder: str, name: str, most: int = -1) -> Optional[bytes]:
    """The bytes of a file of a folder, at most so many; None where there is no such file."""
    path = os.path.join(folder, name)
    try:
        if not os.path.isfile(path):
            return None
        with open(path, "rb") as file:
            return file.read(most)
    except FileNotFoundError:
        return None
    except OSError as error:
        raise tool.Fault(f"{path}: {error.strerror}") from None


def digests_of(folder: str, names) -> Digests:
    """The digests of those of some files that are in a folder."""
    contents = ((name, content_of(folder, name)) for name in sorted(names))
    return {name: digest_of(data) for name, data in contents if data is not None}
