"""New files that change places with those of a folder, one by one, and back where one of them can't."""
import contextlib
import errno
import os
import shutil
import stat
import tempfile
from typing import Dict, Optional

NEW, OLD = "new", "old"


def kind_of(path: str) -> Optional[os.stat_result]:
    """What stands at a place, a link as such; None where nothing does."""
    try:
        return os.lstat(path)
    except FileNotFoundError:
        return None


def check_place(path: str) -> Optional[int]:
    """The mode of the file that stands at a place, None where there is none; a folder or a device can't be replaced."""
    found = kind_of(path)
    if found and stat.S_ISDIR(found.st_mode):
        raise IsADirectoryError(errno.EISDIR, os.strerror(errno.EISDIR), path)
    if found and not stat.S_ISREG(found.st_mode) and not stat.S_ISLNK(found.st_mode):
        raise OSError(errno.EEXIST, "it is there already, and is no file", path)
    return stat.S_IMODE(found.st_mode) if found and stat.S_ISREG(found.st_mode) else None


def write_new(path: str, data: bytes, mode: Optional[int]) -> None:
    """Writes a file that isn't there yet: with that mode, else as the umask has it."""
    flags = os.O_WRONLY | os.O_CREAT | os.O_EXCL | getattr(os, "O_NOFOLLOW", 0) | getattr(os, "O_BINARY", 0)
    with open(os.open(path, flags, 0o666), "wb") as file:
        file.write(data)
        if mode is not None:
            os.chmod(path, mode)


def keep(place: str, old: str) -> None:
    """Has a file at two places, as one where the disk can do that."""
    try:
        os.link(place, old, follow_symlinks=False)
    except (OSError, NotImplementedError):
        shutil.copy2(place, old, follow_symlinks=False)


def remove(path: str) -> None:
    """Removes a file that may be gone already."""
    with contextlib.suppress(FileNotFoundError):
        os.remove(path)


class Exchange:
    """Files that are written into a folder of their own inside that of their places.

    staging  that folder; where not all could be put back it stays, with what was there before in `old`
    """

    def __init__(self, folder: str, prefix: str):
        self.folder, self._is_stuck = folder, False
        self._had: Dict[str, bool] = {}
        try:
            self.staging = tempfile.mkdtemp(prefix=prefix, dir=folder or ".")
            for part in (NEW, OLD):
                os.mkdir(os.path.join(self.staging, part))
        except OSError as error:
            raise OSError(error.errno, error.strerror, folder or ".") from None

    def _place(self, name: str) -> str:
        return os.path.join(self.folder, name)

    def _in(self, part: str, name: str) -> str:
        return os.path.join(self.staging, part, name)

    def put(self, name: str, data: bytes) -> None:
        """Writes a new file; a fault names its place."""
        place = self._place(name)
        mode = check_place(place)
        try:
            write_new(self._in(NEW, name), data, mode)
        except OSError as error:
            raise OSError(error.errno, error.strerror, place) from None

    def change(self, name: str) -> None:
        """Puts a new file into its place; what was there first is kept."""
        place = self._place(name)
        try:
            if name not in self._had:
                had = kind_of(place) is not None
                if had:
                    keep(place, self._in(OLD, name))
                self._had[name] = had
            os.replace(self._in(NEW, name), place)
        except OSError as error:
            raise OSError(error.errno, error.strerror, place) from None

    def replace(self, name: str, data: bytes) -> None:
        """Writes a new file, and puts it into its place."""
        self.put(name, data)
        self.change(name)

    def undo(self) -> None:
        """Each place has again what it had, the last changed first."""
        self._is_stuck = True
        for name in list(reversed(self._had)):
            if self._had[name]:
                os.replace(self._in(OLD, name), self._place(name))
            else:
                remove(self._place(name))
            del self._had[name]
        self._is_stuck = False

    def close(self) -> None:
        """Removes what is left of it."""
        if not self._is_stuck:
            shutil.rmtree(self.staging, ignore_errors=True)
