"""Faults that pass by themselves, as too many open files: what failed is tried again, less and less often."""
import time
from typing import Optional

from .opened import Ended

FIRST, LONGEST = 1.0, 30.0      # seconds until it is tried again: the first time, and at most


def passes(error: Optional[BaseException]) -> bool:
    """Whether a fault may be gone without a save: the system refused something, or a program ended."""
    while error is not None and not isinstance(error, (OSError, Ended)):
        error = error.__cause__ or error.__context__
    return error is not None


class Again:
    """When what failed is tried again, None where nothing did that passes."""

    def __init__(self) -> None:
        self._at: Optional[float] = None
        self._wait = FIRST

    def clear(self) -> None:
        """All is well."""
        self._at, self._wait = None, FIRST

    def failed(self, error: BaseException) -> None:
        self._at = time.monotonic() + self._wait if passes(error) else None
        self._wait = min(2 * self._wait, LONGEST)

    def is_due(self) -> bool:
        return self._at is not None and time.monotonic() > self._at
