"""One export at a time in a folder: a lock that says who holds it, and that ends with its process."""
import contextlib
import errno
import os
import re
import socket
import stat
import time
from typing import List

from . import tool
from .interrupts import Held

try:
    import fcntl
except ImportError:     # a system without flock: nothing is locked there
    fcntl = None        # type: ignore[assignment]

NAME = ".export.lock"
PATIENCE = 10.0     # seconds for which another export is waited for
LOOK = 0.05         # seconds between two looks
NO_LOCKS = (errno.ENOLCK, errno.ENOSYS, errno.EOPNOTSUPP)


def who() -> bytes:
    """Who this process is, as its lock says it."""
    since = time.strftime("%Y-%m-%d %H:%M:%S", time.localtime())
    return f"process {os.getpid()} on {socket.gethostname()} since {since}\n".encode("ascii", "replace")


def make_folder(folder: str) -> List[str]:
    """Makes a folder, and those above it; gives those that weren't there, the innermost first."""
    made, path = [], os.path.abspath(folder)
    while not os.path.lexists(path):
        made.append(path)
        path = os.path.dirname(path)
    os.makedirs(folder, exist_ok=True)
    return made


class FolderLock:
    """The lock of a folder, which is made where it isn't there.

    made  the folders that were made for it, the innermost first
    """

    def __init__(self, folder: str, held: Held):
        self.folder = folder
        self.made: List[str] = []
        self._path, self._file = os.path.join(folder, NAME), -1
        until = time.monotonic() + PATIENCE
        while not self._take():
            if time.monotonic() > until:
                raise tool.Fault(f"{folder}: another export writes there: {self._holder()}")
            time.sleep(LOOK)
            held.check()

    def _take(self) -> bool:
        """Takes the lock, unless another has it."""
        self.made = make_folder(self.folder) or self.made
        flags = os.O_RDWR | os.O_CREAT | getattr(os, "O_NOFOLLOW", 0) | getattr(os, "O_NONBLOCK", 0)
        try:
            self._file = os.open(self._path, flags, 0o666)
        except FileNotFoundError:       # one that made the folder too, and couldn't fill it, has taken it away again
            return False
        if not stat.S_ISREG(os.fstat(self._file).st_mode):
            raise OSError(errno.EEXIST, "it is there already, and is no file", self._path)
        if self._is_mine():
            self._say_who()
            return True
        os.close(self._file)
        return False

    def _say_who(self) -> None:
        """Writes who holds it, where the disk has room for that."""
        with contextlib.suppress(OSError):
            os.ftruncate(self._file, 0)
            os.write(self._file, who())

    def _is_mine(self) -> bool:
        """Whether the lock is free, and is still that of the folder once it is held."""
        try:
            if fcntl:
                fcntl.flock(self._file, fcntl.LOCK_EX | fcntl.LOCK_NB)
            there = os.lstat(self._path)
        except FileNotFoundError:
            return False
        except OSError as error:
            if error.errno in NO_LOCKS:
                tool.say(f"{self.folder}: nothing can be locked there: let one export at a time write there")
                return True
            return False
        return os.path.samestat(there, os.fstat(self._file))

    def _holder(self) -> str:
        """Who has it, as the lock says it."""
        try:
            with open(self._path, "rb") as file:
                said = file.read(200)
        except OSError:
            said = b""
        return re.sub(r"[^ -~]", "?", said.decode("ascii", "replace").strip()) or "it doesn't say who"

    def release(self) -> None:
        """Gives it up; where it went away with its folder, there is nothing to remove."""
        try:
            if os.path.samestat(os.lstat(self._path), os.fstat(self._file)):
                os.remove(self._path)
        except FileNotFoundError:
            pass
        os.close(self._file)

    def unmake(self) -> None:
        """Removes the folders that were made for it, those that are empty."""
        for path in self.made:
            try:
                os.rmdir(path)
            except OSError:
                return
