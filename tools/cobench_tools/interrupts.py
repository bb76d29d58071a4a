"""Signals that ask a command to end, held back while what it does can't be left half done."""
import signal
import threading
from typing import Any, Dict

from . import tool

SIGNALS = [getattr(signal, name) for name in ("SIGINT", "SIGTERM", "SIGHUP") if hasattr(signal, name)]


class Stopped(tool.Fault):
    """A signal came, and what was begun is to be undone."""


class Held:
    """While it is entered a signal is only noted, and `check` raises; at its end the signal does what it did before."""

    def __init__(self) -> None:
        self.came = 0
        self._before: Dict[int, Any] = {}

    def __enter__(self) -> "Held":
        if threading.current_thread() is threading.main_thread():
            for each in SIGNALS:
                if signal.getsignal(each) not in (signal.SIG_IGN, None):
                    self._before[each] = signal.signal(each, self._note)
        return self

    def __exit__(self, *_) -> None:
        for each, handler in self._before.items():
            signal.signal(each, handler)
        if self.came:
            signal.raise_signal(self.came)

    def _note(self, number: int, _) -> None:
        self.came = self.came or number

    def check(self) -> None:
        """A moment at which all that was done can be undone."""
        if self.came:
            raise Stopped(f"stopped by {signal.Signals(self.came).name}")
