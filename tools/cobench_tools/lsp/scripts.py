"""An open script: a thread of its own has cobench follow it, and publishes what is wrong."""
import threading
import time

from .. import tool
from ..live.opened import Ended
from . import sheets
from .diagnostics import Diagnostics, by_uri
from .kept import Kept
from .paths import is_sheet, key_of
from .reading import Reading

PAUSE = 0.01        # seconds without a change until a state is looked at, and at most ten of these
RUN_PAUSE = 0.15    # seconds without a change until its run is asked for, where that takes long
SHORT = 0.05        # seconds that a run takes at most which is asked for at once
LOOKS = 1.0         # seconds between two looks at the files that aren't open
MOST_PAUSES = 10
LONGEST = 10.0      # seconds that it has to end


class OpenScript(threading.Thread):
    """A script or data sheet that is open, the cobench behind it, and the last state that is known of it.

    state  what is known (kept.State), None where that is nothing yet
    files  the paths of what it takes in, with its own
    """

    def __init__(self, path, documents, words, client):
        super().__init__(daemon=True)
        self.path, self.documents, self.client = path, documents, client
        self.state, self.files = None, [path]
        self._touched, self._seen, self._ended, self._wake = 1, 0, False, threading.Condition()
        self._kept = Kept(path, words, lambda text: client.warn(f"{path}: {text}"), self._is_newer)
        self._published, self._run_took, self._looked = {}, 0.0, 0

    # What others say to it.

    def touch(self):
        """A file that it may be made of is another."""
        with self._wake:
            self._touched += 1
            self._wake.notify_all()

    def stop(self):
        """Has it end soon, and take away what it has published."""
        with self._wake:
            self._ended = True
            self._wake.notify_all()

    def end(self):
        """Waits until it has ended; where its cobench doesn't answer, that is ended."""
        self.stop()
        self.join(LONGEST)
        if self.is_alive():
            self._kept.kill()
            self.join(LONGEST)

    def has(self, path):
        """Whether a file is one of those that it is made of."""
        return key_of(path) in set(map(key_of, self.files))

    def _is_newer(self):
        """Whether something has come since the state that was seen."""
        return self._ended or self._touched != self._seen

    def is_settled(self):
        """Whether all that has come was looked at, to the end."""
        return self._looked == self._touched

    # What it does.

    def run(self):
        try:
            while not self._ended:
                self._follow()
        finally:
            self._kept.close()
            self._publish({})

    def _follow(self):
        """Waits for what is new, and says what is wrong with it."""
        with self._wake:
            if self._touched == self._seen:
                self._wake.wait(LOOKS)
        if not self._ended and (self._touched != self._seen or self._is_other()):
            self._seen = self._stands_still(PAUSE, MOST_PAUSES)
            self._work()
            self._looked = self._seen

    def _work(self):
        """Looks at what was seen, whatever comes of it."""
        try:
            self._look(self._seen)
        except tool.Fault as fault:
            self._publish(by_uri(self.documents, Diagnostics(self.documents, self.path).of_fault(fault)))
        except Ended as ended:
            self._kept.close()
            self.client.warn(f"{self.path}: {ended}; it is started again with the next change")
        except Exception as error:      # a slip of cobtool may not end what a person sits before
            self._kept.close()
            self.client.warn(f"cobtool itself: {type(error).__name__}: {error}")

    def _is_other(self):
        """Whether a file that isn't open is another, or the cobench has ended."""
        return self.documents.changed(self.files) or self._kept.has_ended()

    def _stands_still(self, pause, most=1):
        """Waits until nothing has come for a while: the number of the last touch."""
        with self._wake:
            for _ in range(most):
                before = self._touched
                self._wake.wait_for(lambda: self._ended or self._touched != before, pause)
                if self._touched == before:
                    break
            return self._touched

    def _look(self, seen):
        """Has cobench follow the files as they are, and publishes what is wrong: what the run shows comes behind it."""
        reading, commands = self._read()
        state = self._kept.state(reading, commands)
        state.run_found = self._still_of(state)
        if is_sheet(self.path):
            self._tell(state, seen)
            return self._kept.rest()
        if self._run_took > SHORT:
            self._tell(state, seen)
            if self._stands_still(RUN_PAUSE) != seen:
                return None
        start = time.monotonic()
        self._kept.take_run(state)
        self._run_took = time.monotonic() - start
        self._tell(state, seen)
        return self._kept.rest()

    def _still_of(self, state):
        """What the run of the state before has shown of parts that are still there: it counts until the next run."""
        parts = state.evidence.origins
        return [each for each in (self.state.run_found if self.state else []) if is_there(parts, each.part)]

    def _read(self):
        """The commands of the script as it is now."""
        reading = Reading(self.documents)
        try:
            commands = sheets.commands(reading, self.path) if is_sheet(self.path) else reading.commands(self.path)
        finally:
            self._take_files([self.path] + [each for each in reading.files if each != self.path])
        return reading, commands

    def _take_files(self, files):
        """It is made of these files from now on."""
        if files != self.files:
            self.files = files
            self.client.arrange()

    def _tell(self, state, seen):
        """A state is the one that is known, and what is wrong with it is published, unless there is a newer one."""
        self.state = state
        if seen == self._touched and not self._ended:
            self._publish(by_uri(self.documents, Diagnostics(self.documents, self.path).of_state(state)))

    def _publish(self, found):
        """Publishes diagnostics by URI: those that are others than before, and none where there are none any more."""
        for uri in set(self._published) - set(found):
            self.client.diagnostics(self, uri, [])
        for uri, several in found.items():
            self.client.diagnostics(self, uri, several)
        self._published = found


def is_there(origins, part):
    """Whether a part of the project, as `node 5`, is there."""
    what, _, name = part.partition(" ")
    return origins.command(what, int(name) if name.isdigit() and what in ("node", "event") else name) is not None
