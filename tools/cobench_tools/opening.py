"""Opens files that somebody names, and reads them: none is waited for that nobody writes, none is read past its limit."""
import errno
import os
import queue
import stat
import threading
from typing import BinaryIO, Callable, List, Optional, Union

FLAGS = os.O_RDONLY | getattr(os, "O_BINARY", 0) | getattr(os, "O_NOCTTY", 0) | getattr(os, "O_CLOEXEC", 0)
AT_ONCE = getattr(os, "O_NONBLOCK", 0)
PIECE = 1 << 20
PATIENCE = 1.0      # so many seconds somebody may take to open the other end of a named pipe

KINDS = ((stat.S_ISDIR, "a folder"), (stat.S_ISFIFO, "a pipe"), (stat.S_ISSOCK, "a socket"), (stat.S_ISCHR, "a device"),
         (stat.S_ISBLK, "a device"))


def other_kind(path: str) -> Optional[str]:
    """What there is that is no file, as `a pipe`; None for a file, and where nothing is."""
    try:
        mode = os.stat(path).st_mode
    except (OSError, ValueError):
        return None
    return next((name for is_kind, name in KINDS if is_kind(mode)), None)


def open_file(path: str) -> BinaryIO:
    """A file that is open for reading, buffered; an OSError says in words why there is none."""
    number = open_pipe(path) if other_kind(path) == "a pipe" else os.open(path, FLAGS | AT_ONCE)
    try:
        if stat.S_ISDIR(os.fstat(number).st_mode):
            raise IsADirectoryError(errno.EISDIR, os.strerror(errno.EISDIR), path)
        if AT_ONCE:
            os.set_blocking(number, True)
        return os.fdopen(number, "rb")
    except OSError:
        os.close(number)
        raise


def open_pipe(path: str) -> int:
    """The number of a pipe that somebody writes into: its opening waits in a thread of its own, and not for ever."""
    found: "queue.SimpleQueue[Union[int, OSError]]" = queue.SimpleQueue()
    threading.Thread(target=put_opened, args=(path, found), daemon=True).start()
    try:
        number = found.get(timeout=PATIENCE)
    except queue.Empty:
        give_up(path, found)
        raise OSError(errno.ENXIO, "it is a pipe, and nobody writes into it", path) from None
    if isinstance(number, OSError):
        raise number
    return number


def put_opened(path: str, found: "queue.SimpleQueue[Union[int, OSError]]") -> None:
    """Opens a pipe, which waits for a writer, and puts its number, or why it can't be opened."""
    try:
        found.put(os.open(path, FLAGS))
    except OSError as error:
        found.put(error)


def give_up(path: str, found: "queue.SimpleQueue[Union[int, OSError]]") -> None:
    """Ends the wait for a writer, by being one for a moment."""
    try:
        os.close(os.open(path, os.O_WRONLY | AT_ONCE))
        number = found.get(timeout=PATIENCE)
        if isinstance(number, int):
            os.close(number)
    except (OSError, queue.Empty):
        pass


def bytes_of(file: BinaryIO, most: int, judge: Callable[[bytes], None]) -> Optional[bytes]:
    """All bytes of an open file, None where they are more than so many; the first ones are judged as they come."""
    size, pieces = 0, []  # type: int, List[bytes]
    wanted = min(max(size_of(file) + 1, PIECE), most + 1)
    while size <= most:
        piece = file.read(wanted)
        if not pieces:
            judge(piece)
        if not piece:
            return b"".join(pieces)
        pieces.append(piece)
        size, wanted = size + len(piece), PIECE
    return None


def size_of(file: BinaryIO) -> int:
    """How many bytes an open file says that it has, 0 where that isn't known."""
    try:
        return os.fstat(file.fileno()).st_size
    except OSError:
        return 0
