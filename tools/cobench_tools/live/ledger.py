"""What each save cost: the edits that were sent, what was made anew, and how long each step took."""
import contextlib
import time

MOST_SAVES, MOST_EDITS = 30, 12
LONGEST_EDIT = 160


class Save:
    """A save of the script.

    files   the files that were other
    edits   the edits that were sent to the open cobench, None where it was started afresh
    why     why it was started afresh
    steps   what was done, each with its milliseconds
    doing   what is being done
    changed the numbers of the windows of the run that became others
    saved   when the last of the files was written, in milliseconds of the clock, 0 for none
    """

    def __init__(self, number, files):
        self.number, self.files, self.edits, self.why, self.steps, self.doing = number, files, None, "", [], ""
        self.clock, self._start = time.strftime("%H:%M:%S"), time.monotonic()
        self.changed, self.of_windows, self.lines, self.saved = set(), 0, 0, 0

    @contextlib.contextmanager
    def step(self, what):
        """Measures a step."""
        self.doing, start = what, time.monotonic()
        yield
        self.steps.append([what, milliseconds(start)])
        self.doing = ""

    def record(self):
        """The save, as the page has it."""
        edits = None if self.edits is None else [shortened(edit) for edit in self.edits[:MOST_EDITS]]
        return {"save": self.number, "clock": self.clock, "files": self.files, "why": self.why, "steps": self.steps,
                "edits": edits, "count": len(self.edits or ()), "windows": len(self.changed), "ofWindows": self.of_windows,
                "lines": self.lines, "saved": self.saved, "all": milliseconds(self._start)}


def milliseconds(start):
    return round((time.monotonic() - start) * 1000, 1)


def shortened(edit):
    """The first line of an edit, as text."""
    line = edit.split(b"\n", 1)[0].decode("utf-8", "replace")
    return line if len(line) <= LONGEST_EDIT else line[:LONGEST_EDIT - 2] + ".."
