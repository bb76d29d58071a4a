"""The cobenches behind the page: one that stays open, with its last replies, and one that works out each script's project apart."""
import contextlib
import functools
import time

from .. import tool
from .children import WAIT
from .edits import NEVER, edits, first_moment, first_project, items_of, moment_of, nodes_of_files
from .opened import Ended, Opened, lines_of, work_in_words
from .run import WINDOW

PARTS = 100_000, 1_000_000      # microseconds of the parts of a run that are asked for before the whole


class Made:
    """A project: the reply to `project`, and its commands by what they set."""

    def __init__(self, reply):
        self.reply, self.items = reply, items_of(lines_of(reply)[1:])

    def nodes(self):
        return [key[1] for key in self.items if key[0] == b"node"]

    def horizon(self):
        return moment_of(self.items[b"horizon",])


class Reply:
    """A reply to a query as it stands, and its lines, which are taken apart once."""

    def __init__(self, text):
        self.text = text

    @functools.cached_property
    def lines(self):
        return lines_of(self.text)[1:]


def queries_of(nodes):
    """The queries that the page is made of, of some nodes, but for `trace`, which comes behind them."""
    return [b"diag"] + [name + b" " + node for node in nodes for name in (b"cdcf", b"dcf")]


def parts_of(first, horizon):
    """The horizons to which a long run is asked for before it is asked for whole: a tenth of a second, which is there at
    once, and a second behind the first moment that an edit can change, which is where one looks for what it has changed.
    There are none where two seconds don't come behind that moment: cobench keeps the windows before it, so that little is
    simulated, and parts would only cost their text.
    """
    start = first // WINDOW * WINDOW
    return [start + part - 1 for part in PARTS] if start + 2 * PARTS[-1] <= horizon else []


class Programs:
    """The cobenches that these words start, as children.

    opened   the open one, and `made` the project that it was led to
    work     what the last one that was ended says it has made anew, in words
    is_long  whether the run takes long enough that the replies before it are waited for apart: what a cobench
             reads at once it answers at once
    parts    the horizons to which the run is still to be taken, before all of it
    """

    def __init__(self, words, children):
        self.words, self.children = words, children
        self.opened, self.made, self.work, self.is_long = None, None, "", False
        self._spare, self._past = None, []
        self._replies, self._current, self._asked = {}, set(), []
        self._edits, self._before, self._runs, self.parts = [], None, [], []

    # The one apart.

    def apart(self, commands):
        """The replies of a cobench of its own to some commands, and the project that they make."""
        opened, self._spare = self._spare if self._spare and self._spare.is_running() else Opened(self.words, self.children), None
        self._past.append(opened)
        try:
            opened.send(b"".join(commands + [b"project\n"]), len(commands) + 1)
            return opened.take(len(commands)), Made(opened.take_reply())
        except Ended as ended:
            raise tool.Fault(str(ended)) from None

    def wait(self):
        """Ends those that were asked apart, and has another one wait for the next script."""
        while self._past:
            self._past.pop().close()
        if self.opened and not self._spare:
            with contextlib.suppress(tool.Fault):
                self._spare = Opened(self.words, self.children)

    # The open one.

    def start(self, new):
        """Starts it afresh, with a project."""
        self.close()
        self.opened, self._runs = Opened(self.words, self.children), []
        self.ask(edits(first_project(), new.items), new)

    def edits_to(self, new):
        """The edits by which it comes to a project."""
        self.opened.leave()
        return edits(self.made.items, new.items)

    def ask(self, commands, new):
        """Sends edits that lead to a project, and all queries behind them but those of files that the edits can't change."""
        nodes, self._edits, self._before = nodes_of_files(commands), commands, self.made
        self._current = set() if nodes is None else self._current.difference(queries_of(nodes))
        self.made, self._asked, self.parts = new, [query for query in queries_of(new.nodes()) if query not in self._current], []
        queries = [b"project"] + self._asked + ([] if self.is_long else [b"trace"])
        self.opened.send(b"".join(commands + [query + b"\n" for query in queries]), len(commands) + len(queries))

    def is_led(self):
        """Whether its project is now the one that it was led to."""
        self.opened.take(len(self._edits))
        return self.opened.take_reply(self.made.reply) is self.made.reply

    def answers(self):
        """The lines that it answers to all queries but `trace`: the same as before where they are."""
        others = [query for query in self._asked if self._is_other(query)]
        if self.is_long:
            self.parts = parts_of(self._first_moment(others), self.made.horizon())
            self._ask_run()
        else:
            self._has_run()
        return {tool.shown(query): self._replies[query].lines for query in queries_of(self.made.nodes())}

    def _is_other(self, query):
        """Takes the reply to a query: whether it is another than before."""
        known = self._replies.get(query)
        text = self.opened.take_reply(known.text if known else b"")
        self._current.add(query)
        if not known or known.text is not text:
            self._replies[query] = Reply(text)
        return self._replies[query] is not known

    # Its run.

    def _first_moment(self, others):
        """The first moment of the run that has to be simulated, where the replies to some queries are others: none where an
        edit is taken back, as the windows of the project before are kept too; the start where the project before was left.
        """
        if self.made.reply in self._runs:
            return NEVER
        if not self._before or self._before.reply not in self._runs[-1:]:
            return 0
        return first_moment(self._edits, self._before.items, self.made.items, any(query != b"diag" for query in others))

    def _has_run(self):
        """The run is asked for whole: it is the last of the two that cobench keeps for sure."""
        self._runs = [each for each in self._runs if each != self.made.reply][-1:] + [self.made.reply]

    def _ask_run(self):
        """Asks for the next part of the run, or for all of it. Behind each the project is what it was, whether the replies are
        taken or left.
        """
        if self.parts:
            self.opened.send(b"horizon %d\ntrace\nhorizon %d\n" % (self.parts[0], self.made.horizon()), 3)
        else:
            self.opened.send(b"trace\n", 1)
            self._has_run()

    def take_part(self):
        """The next of the horizons, and the trace to it. What comes behind is asked for: cobench simulates it while that is drawn."""
        self.opened.take(1)
        text = self.opened.take_text()
        self.opened.take(1)
        horizon = self.parts.pop(0)
        self._ask_run()
        return horizon, text

    def why_ended(self):
        """Why it has ended, in words, "" where it hasn't."""
        if not self.opened or self.opened.is_running():
            return ""
        try:
            self.opened.ask(b"", 1)
        except Ended as ended:
            return str(ended)
        return f"{self.words[0]} ended"

    def close(self):
        """Ends all of them, which have the same time for it."""
        running = [each for each in (self.opened, self._spare, *self._past) if each]
        for each in running:
            each.let_go()
        until = time.monotonic() + WAIT
        for each in running:
            each.close(until)
        self.work = work_in_words(self.opened.work) if self.opened else self.work
        self.opened, self._spare, self._past = None, None, []


def probe(words, children):
    """Whether the program can be run at all."""
    opened = Opened(words, children)
    try:
        opened.lines(b"project")
    except Ended as ended:
        raise tool.Fault(str(ended)) from None
    finally:
        opened.close()
