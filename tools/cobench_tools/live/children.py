"""The programs that run: each ends in time, whatever it does, and all can be ended from another thread."""
import contextlib
import os
import signal
import subprocess
import threading
import time
from typing import Callable, List, Set

from .. import tool

WAIT = 1.0      # seconds that a program has to end once nothing more comes


class Children:
    """Programs, each with what it has started in a group of its own.

    is_other_work  whether there is newer work than what they do
    """

    def __init__(self, is_other_work: Callable[[], bool] = lambda: False) -> None:
        self.is_other_work = is_other_work
        self._lock, self._is_over = threading.Lock(), False
        self._running: Set[subprocess.Popen] = set()

    def start(self, words: List[str], **streams) -> subprocess.Popen:
        """Starts a program; none once all were ended."""
        with self._lock:
            if self._is_over:
                raise tool.Fault("cobtool live is being ended")
            process = subprocess.Popen(words, start_new_session=True, **streams)
            self._running.add(process)
            return process

    def end(self, process: subprocess.Popen, until: float) -> None:
        """Waits for the end of a program until then; what is left of its group is killed."""
        with contextlib.suppress(subprocess.TimeoutExpired):
            process.wait(max(0, until - time.monotonic()))
        kill(process)
        process.wait()
        with self._lock:
            self._running.discard(process)

    def kill(self) -> None:
        """Kills all of them, and has none start any more."""
        with self._lock:
            self._is_over = True
            for process in self._running:
                kill(process)


def kill(process: subprocess.Popen) -> None:
    """Kills a program, and what it has started."""
    with contextlib.suppress(ProcessLookupError, PermissionError):
        os.killpg(process.pid, signal.SIGKILL)
