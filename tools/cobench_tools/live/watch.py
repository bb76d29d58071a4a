"""Looks whether files are other than they were: by time and size first, and then by content."""
import hashlib
import os
import time

from .. import tool

SETTLED = 0.01      # seconds for which files stand still before what they make is told: some editors write in two steps
FILLED = 0.25       # seconds in which a file that is empty or gone may come: some editors take it away first
JUST_NOW = 0.1      # seconds in which two writes of a file may have one time
MOST_LOOKS = 30


def stamp_of(path):
    """What changes when a file is written, None where it isn't there."""
    try:
        found = os.stat(path)
    except (OSError, ValueError):
        return None
    return found.st_mtime_ns, found.st_size, found.st_ino


def digest_of(path):
    """What says which content a file has, None where it can't be read."""
    try:
        return hashlib.sha256(tool.read(path)).digest()
    except tool.Fault:
        return None


def written_at(path):
    """When a file was written, in milliseconds of the clock, 0 where it isn't there."""
    stamp = stamp_of(path)
    return stamp[0] // 1_000_000 if stamp else 0


def until(stamp, now):
    """Until when a file with this stamp now may be written on, in seconds of the clock."""
    if stamp is None:
        return now + FILLED
    written, size, _ = stamp
    return written / 1e9 + (SETTLED if size else FILLED)


class Watch:
    """Looks after files, of which it keeps how they were when they were read."""

    def __init__(self):
        self._files, self._read = {}, {}

    def read_text(self, path):
        """The bytes of a file that has to be a text, which is one of those that are being read."""
        self._read[path] = stamp_of(path), None
        text = tool.read(path)
        self._read[path] = self._read[path][0], hashlib.sha256(text).digest()
        tool.check_text(text, path)
        return text

    def take(self, path):
        """What was read are the files from now on; where nothing was, it is one."""
        self._files, self._read = self._read or {path: (stamp_of(path), digest_of(path))}, {}

    def changed(self):
        """The files that are other than they were."""
        found = []
        for path, (stamp, digest) in self._files.items():
            now = stamp_of(path)
            if now != stamp:
                self._files[path] = now, digest_of(path)
                found += [path] if self._files[path][1] != digest or (now is None) != (stamp is None) else []
        return found

    def stands_still(self):
        """Waits until the files haven't been written for a while; whether they are as they were read."""
        start = time.time()
        for _ in range(MOST_LOOKS):
            wait = max((until(stamp, start) for stamp, _ in self._files.values()), default=start) - time.time()
            if not 0 < wait <= FILLED or self.has_moved():
                break
            time.sleep(min(wait, SETTLED))
        return not self.has_moved()

    def has_moved(self):
        """Whether a file is other than it was; of one that was written just now, its time doesn't tell alone."""
        late = time.time() - JUST_NOW
        return any(stamp_of(path) != stamp or stamp and stamp[0] / 1e9 > late and digest_of(path) != digest
                   for path, (stamp, digest) in self._files.items())
