"""A cobench that stays open: commands go in, and each has its reply before more is needed."""
import contextlib
import os
import queue
import re
import select
import subprocess
import tempfile
import threading
import time

from .. import replies, safe_text, tool
from .children import WAIT, Children, kill

ACCEPTED = b"ok\n"
PIECE = 1 << 20
MANY = 4096     # lines that aren't gone through one by one
SET_PIPE_SIZE = 1031    # of Linux: a long answer then takes few reads
LONGEST_LINE = 1 << 16  # bytes of a line in which a reply begins
LOOK = 0.5      # seconds between two looks whether what is being waited for is wanted at all
SILENT = 30.0   # seconds without a word after which a cobench is given up, where there is a newer save


class Ended(Exception):
    """The program ended, or wrote what is no reply; in words."""


def widen(stream):
    """Has a pipe hold a long answer, where the system can do that."""
    with contextlib.suppress(ImportError, OSError):
        import fcntl
        fcntl.fcntl(stream.fileno(), SET_PIPE_SIZE, PIECE)


def comes(stream, seconds):
    """Whether something comes from a program within a time, or its end."""
    looked = select.poll()
    looked.register(stream, select.POLLIN)
    return bool(looked.poll(seconds * 1000))


def lines_of(text):
    """The lines of a text that is made of whole ones."""
    return text.split(b"\n")[:-1]


def end_of(text, count, there):
    """Where the first lines of a text end: so many of those that are there, looked for from the nearer end."""
    behind = there - count
    if count < behind:
        end = 0
        for _ in range(count):
            end = text.find(b"\n", end) + 1
        return end
    end = len(text)
    for _ in range(behind + 1):
        end = text.rfind(b"\n", 0, end)
    return end + 1


class Opened:
    """A cobench over pipes, one of these children.

    work  what it says at its end on what it made anew (`--work`), in words, "" where it doesn't say
    due   how many replies to what was sent haven't been taken yet
    """

    def __init__(self, words, children=None):
        self.words, self.work, self.due = words, "", 0
        self._children = children or Children()
        with contextlib.ExitStack() as opened:
            try:
                self._faults = opened.enter_context(tempfile.TemporaryFile())
                self._process = self._children.start(words + ["--work"], bufsize=0, stdin=subprocess.PIPE,
                                                     stdout=subprocess.PIPE, stderr=self._faults)
            except OSError as error:
                raise tool.Fault(f"{words[0]}: {error.strerror}") from None
            opened.pop_all()
        self._read, self._at, self._texts, self._writer = b"", 0, queue.SimpleQueue(), None
        widen(self._process.stdout)

    def send(self, text, count):
        """Sends that many commands, which are this text; their replies are taken later."""
        self.due += count
        self._write(text)

    def take(self, count):
        """The next replies to what was sent."""
        accepted = ACCEPTED * count
        if count and self._comes(accepted):
            self._at += len(accepted)
            answers = [replies.Reply(0)] * count
        else:
            answers = [self._reply() for _ in range(count)]
        self.due -= count
        return answers

    def ask(self, text, count):
        """The replies to that many commands, which are this text."""
        self.send(text, count)
        return self.take(count)

    def leave(self):
        """Leaves the replies that haven't been taken."""
        self.take(self.due)

    def take_reply(self, kept=b""):
        """The next reply, which is that to a query, whole; `kept`, which is such a reply, where it is the same."""
        if kept and self._comes(kept):
            self._at += len(kept)
            self.due -= 1
            return kept
        text = self.take_text()
        return b"lines %d\n" % text.count(b"\n") + text

    def take_text(self):
        """The lines of the next reply, which is that to a query, as a text."""
        query = replies.LINES.fullmatch(self._next_line())
        if not query:
            raise Ended(f"{self.words[0]}: a query was refused")
        self.due -= 1
        return self._next_text(int(query.group(1)))

    def lines(self, query):
        """The lines that a query answers, which can't be refused."""
        reply = self.ask(query + b"\n", 1)[0]
        if reply.lines is None:
            raise Ended(f"{self.words[0]}: {tool.shown(query)} was refused")
        return reply.lines

    def is_answering(self):
        """Whether some of its output is there."""
        return self._at < len(self._read) or comes(self._process.stdout, 0)

    def is_running(self):
        return self._process.poll() is None

    def let_go(self):
        """Nothing more comes: it ends by itself, unless replies are due, which nobody waits for any more."""
        if self.due:
            kill(self._process)
        self._write(None)

    def close(self, until=None):
        """Ends the program, which has time until then, else for a while."""
        self.let_go()
        self._children.end(self._process, until or time.monotonic() + WAIT)
        self.work = self._last_words() if self._process.returncode == 0 else ""
        self._process.stdout.close()
        self._faults.close()

    def _write(self, text):
        """Has a text written, or the input closed for None, by a thread: neither side waits for the other for ever."""
        self._texts.put(text)
        if not self._writer:
            self._writer = threading.Thread(target=self._write_all, daemon=True)
            self._writer.start()

    def _write_all(self):
        """Writes the texts; where the program ended, who reads the replies learns of it."""
        with contextlib.suppress(OSError, ValueError):
            for text in iter(self._texts.get, None):
                left = memoryview(text)
                while left:
                    left = left[self._process.stdin.write(left):]
        with contextlib.suppress(OSError):
            self._process.stdin.close()

    def _reply(self):
        line = self._next_line()
        query = replies.LINES.fullmatch(line)
        if query:
            return replies.Reply(0, lines=lines_of(self._next_text(int(query.group(1)))))
        refused = replies.REFUSED.fullmatch(line)
        if refused:
            return replies.Reply(0, refused=tool.shown(b" ".join(refused.groups())))
        if line != b"ok":
            raise Ended(f"{self.words[0]}: this is no reply: {tool.shown(line[:60])}")
        return replies.Reply(0)

    def _comes(self, text):
        """Whether this text comes next in its output; as much is read as has to be for that."""
        while len(self._read) - self._at < len(text):
            if not text.startswith(self._read[self._at:]):
                return False
            self._read, self._at = self._read[self._at:] + self._piece(), 0
        return self._read.startswith(text, self._at)

    def _next_line(self):
        """The next line of its output."""
        end = self._read.find(b"\n", self._at)
        while end < 0:
            self._read, self._at = self._read[self._at:] + self._piece(), 0
            end = self._read.find(b"\n")
            if end < 0 and len(self._read) > LONGEST_LINE:
                raise Ended(f"{self.words[0]}: this is no reply: {tool.shown(self._read[:60])}")
        line, self._at = self._read[self._at:end], end + 1
        return line

    def _next_text(self, count):
        """The next lines of its output, as one text."""
        start = end = self._at
        for _ in range(count if count < MANY else 0):
            end = self._read.find(b"\n", end) + 1
            if not end:
                return self._long_text(count)
        self._at = end
        return self._read[start:end] if count < MANY else self._long_text(count)

    def _long_text(self, count):
        """The next lines of its output, of which there are many, or some haven't been read yet."""
        parts, there = [self._read[self._at:]], self._read.count(b"\n", self._at)
        missing = count - there
        while missing > 0:
            parts.append(self._piece())
            there = parts[-1].count(b"\n")
            missing -= there
        self._read, self._at = parts[-1], end_of(parts[-1], missing + there, there)
        parts[-1] = self._read[:self._at]
        return b"".join(parts)

    def _piece(self):
        """Reads on; gives a program up that says nothing, where something newer waits."""
        since = time.monotonic()
        while not comes(self._process.stdout, LOOK):
            if time.monotonic() - since > SILENT and self._children.is_other_work():
                silent = f"said nothing for {time.monotonic() - since:.0f} seconds"
                raise Ended(f"{self.words[0]} {silent}, and the script was saved anew")
        piece = os.read(self._process.stdout.fileno(), PIECE)
        if not piece:
            raise Ended(self._why_ended())
        return piece

    def _why_ended(self):
        try:
            status = self._process.wait(WAIT)
        except subprocess.TimeoutExpired:
            return f"{self.words[0]} closed its output"
        by = f"was killed by signal {-status}" if status < 0 else f"ended with status {status}"
        last = self._last_words()
        return f"{self.words[0]} {by}" + (f": {last}" if last and status else "")

    def _last_words(self):
        """The last line that it wrote on its standard error."""
        self._faults.seek(0)
        lines = safe_text.lines(tool.shown(self._faults.read())).strip().splitlines()
        return lines[-1] if lines else ""


def work_in_words(line):
    """What `--work` says, in words."""
    found = re.fullmatch(r"work ([0-9]+) ([0-9]+)", line)
    return f"{int(found.group(1)):,} windows simulated and {int(found.group(2)):,} parts made anew" if found else ""
