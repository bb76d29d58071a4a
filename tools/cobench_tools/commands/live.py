"""Keeps a page open that follows a script: what is wrong, files, messages and the run, right after each save."""
import contextlib
import os
import queue
import secrets
import signal
import threading
import time

from .. import acceptance, interrupts, session, tool
from ..live.doorway import Doorway
from ..live.editor import Editor
from ..live.feed import Feed
from ..live.follow import Follower
from ..live.programs import probe
from ..live.server import Server

SUMMARY = "follow a script in a browser: after each save what is wrong, files, messages, run"

AFTER = f"""Starts a cobench that stays open, and serves a page on this machine alone. When
SCRIPT or a file that it takes in is saved, the edits between the two projects go to
the open cobench, and the page shows what it answers: what is wrong, each node with
its files, the messages, and the run as a timeline and as a table. What the save has
changed is marked: what is new, what was otherwise, and what has gone. A long run
comes in parts, its first second first: what lies behind is pale until it is
simulated. Ctrl-C ends it, within two seconds whatever cobench does.

The line of a finding is a button: it copies FILE:LINE, or opens that line by the
words of --editor, in which {{file}} and {{line}} stand for the two.

{acceptance.ACCEPTED} FILE is followed as
SCRIPT is.

The address that is printed has a word, made anew each time, that the page, its feed
and the files ask for, so that other accounts of the machine read nothing; with
--open-to-all they can. --open hands the browser a file that only you can read, as
others see the words that programs are started with; a browser that can't read it,
as one in a snap, shows nothing: open the printed address there.

{session.PROGRAM} Status: 0 once it is ended, 2 where SCRIPT isn't there, cobench
can't be run, or the port is in use.

  cobtool live --open network.txt
  cobtool live --editor 'code -g {{file}}:{{line}}' --allow 'sheet drive' network.txt"""

PORT = 8306
LOOKS = 0.02, 0.2   # seconds between two looks at the files, and where a file system is slow
SHARE = 0.05        # of the time that goes into looks, where it isn't


SOON = 0.25         # seconds for which what is being done is waited for at the end; and once it was ended by force


def arguments(parser):
    parser.epilog = AFTER
    parser.add_argument("script", metavar="SCRIPT")
    parser.add_argument("--port", metavar="N", type=int, default=PORT,
                        help=f"serve at this port, not at {PORT}; 0 takes a free one")
    parser.add_argument("--open", action="store_true", help="open the page in the browser")
    parser.add_argument("--open-to-all", action="store_true",
                        help="let all accounts of this machine read the page: its address has no word")
    parser.add_argument("--editor", metavar="WORDS", help="open the line of a finding by these words; it is copied without them")
    acceptance.add_allowed(parser)
    session.add_arguments(parser)


def opens_of(options, follower):
    """What opens a line that the page names in the editor, None where there is none."""
    if options.editor is None:
        return None
    if options.open_to_all:
        raise tool.Fault("--editor and --open-to-all: other accounts of this machine could start your editor")
    editor = Editor(options.editor)
    return lambda path, line: editor.open(path, line) if follower.has_place(path, line) else "the page names no such line"


def server_of(options, feed, follower):
    """The server of the page."""
    if not 0 <= options.port <= 65535:
        raise tool.Fault(f"a port is 0 to 65535, not {options.port}")
    word = "" if options.open_to_all else secrets.token_urlsafe(16)
    try:
        return Server(options.port, os.path.basename(options.script), feed, follower.saved, word, opens_of(options, follower))
    except OSError as error:
        raise tool.Fault(f"port {options.port}: {error.strerror}; --port takes another") from None


def pause_after(look):
    """How long there is no look at the files after one that took so long, in seconds."""
    return min(max(LOOKS[0], look / SHARE), LOOKS[1])


class Live(threading.Thread):
    """Follows a script and serves its page in a thread of its own, which the main one can end whatever it waits for.

    ends  gets what went wrong, where it can't go on
    """

    def __init__(self, options, ends):
        super().__init__(daemon=True)
        self.options, self.ends, self.is_over = options, ends, False
        self.feed, self.server, self.doorway = Feed(), None, Doorway()
        self.follower = Follower(options.script, session.program(options.cobench), self.feed, options)

    def run(self):
        try:
            self.begin()
            self.follow()
        except BaseException as error:
            self.ends.put(error)

    def begin(self):
        """Has the page there, and says where."""
        probe(self.follower.words, self.follower.children)
        self.server = server_of(self.options, self.feed, self.follower)
        threading.Thread(target=self.server.serve, daemon=True).start()
        tool.put(f"{self.server.address} follows {self.options.script}; Ctrl-C ends it\n")
        if self.options.open:
            self.doorway.open(self.server.address, bool(self.server.word))

    def follow(self):
        """Looks at the files again and again."""
        while not self.is_over:
            start = time.monotonic()
            is_other = self.follower.look()
            time.sleep(LOOKS[0] if is_other else pause_after(time.monotonic() - start))

    def close(self):
        """Ends it: what cobench is doing isn't waited for."""
        self.is_over = True
        self.join(SOON)
        if self.is_alive():
            self.follower.kill()
            self.join(SOON)
        if not self.is_alive():
            self.follower.close()
        if self.server:
            self.server.close()
        self.doorway.close()


def ends_by_signals():
    """What gets None with the first signal that asks for the end.

    Shells have the jobs of a script ignore SIGINT: it ends this one all the same. Under nohup SIGHUP doesn't.
    """
    ends = queue.SimpleQueue()
    for each in interrupts.SIGNALS:
        if each != getattr(signal, "SIGHUP", None) or signal.getsignal(each) != signal.SIG_IGN:
            signal.signal(each, lambda *_: ends.put(None))
    return ends


def end_of(ends):
    """Why it ends, None for a signal; one that another thread was given is seen at the next look."""
    while True:
        with contextlib.suppress(queue.Empty):
            return ends.get(timeout=LOOKS[1])


def run(options):
    if options.script == "-":
        raise tool.Fault("SCRIPT is a file that an editor saves, not the standard input")
    tool.read_text(options.script)
    ends = ends_by_signals()
    live = Live(options, ends)
    live.start()
    why = end_of(ends)
    live.close()
    if why:
        raise why
    tool.put(f"{live.follower.summary()}\n")
    return tool.DONE
