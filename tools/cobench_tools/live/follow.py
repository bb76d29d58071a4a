"""Follows a script: after each save the open cobench has the project that it makes, and the feed what cobench answers.

The script is read and given to a cobench of its own, which says what of it is refused, and what project it makes. The
way from the last project to that one goes to the open cobench as edits; its project then has to be the new one.
"""
import gc
import os
import time

from .. import acceptance, own_faults, reader, safe_text, session, tool
from .again import Again
from .answers import Answers
from .children import Children
from .ledger import MOST_SAVES, Save
from .opened import Ended
from .programs import Programs
from .quiet import is_quiet, pairs_of
from .run import Run
from . import watch

RESTS = 1.0         # seconds behind a save, where nothing comes, until memory is looked through for what isn't used any more
SHORT = 200         # so many windows of a run are drawn before the eye sees that they come behind the rest
MOST_EDITS = 1      # so many edits are sent before the files have stood still: a script that is half written mostly makes more


class Moved(Exception):
    """A file was written while the one before it was being followed."""


class Follower:
    """Follows a script, over the program that these words start, into a feed.

    accepted  the words of the command that accept findings (allow, allow_from), None for none
    """

    def __init__(self, path, words, feed, accepted=None):
        self.path, self.words, self.feed, self.watch = path, words, feed, watch.Watch()
        self.accepted, self.rules = accepted, []
        self.children = Children(self.watch.has_moved)
        self.programs, self.answers, self.run = Programs(words, self.children), Answers(), Run()
        self.number, self.records, self.is_first = 0, [], True
        self.again, self.files, self.said = Again(), [], None
        self.looks, self.since, self.answered, self.evidence, self.drawn = 0, 0.0, None, None, {}

    # Looking.

    def look(self):
        """Looks whether there is something to do, and does it; the first look is as a save. Gives the files that are other."""
        changed = self.watch.changed() if self.number else [self.path]
        why = "" if changed else self.programs.why_ended()
        if changed or why:
            self.number, self.files = self.number + 1, changed
            self.again.clear()
            self.say("working", safe_text.readable(why) or "the script was saved")
            self.update(changed, why)
        elif self.again.is_due():
            self.update(self.files)
        elif not gc.isenabled() and time.monotonic() > self.since + RESTS:
            gc.enable()
            gc.collect()
        return changed

    def close(self):
        """Ends all that it has started."""
        self.programs.close()
        gc.enable()

    def kill(self):
        """Ends all that it has started at once, from another thread."""
        self.children.kill()

    def saved(self, name):
        """The bytes and the type of a node's file, as `5.dcf`, else None."""
        return self.answers.saved(name)

    def has_place(self, path, line):
        """Whether the page names this line of this file."""
        return (path, line) in self.answers.places()

    def summary(self):
        """What there was to do, in a line."""
        saves = f"{self.number} save{'' if self.number == 1 else 's'}"
        return f"{saves}; the last cobench: {self.programs.work}" if self.programs.work else saves

    # A save.

    def update(self, files, why=""):
        """Brings the open cobench and the feed to what the script makes now; what can wait comes behind it."""
        gc.disable()
        for self.looks in range(watch.MOST_LOOKS, 0, -1):
            try:
                self.follow(files, why)
                break
            except Moved:
                files = sorted({*files, *self.watch.changed()})
        self.since = time.monotonic()
        self.programs.wait()

    def follow(self, files, why):
        """Follows what the files have now."""
        save = Save(self.number, [os.path.basename(file) for file in files])
        save.saved = max([watch.written_at(file) for file in files], default=0)
        try:
            pairs, new = self.read(save)
            self.lead(save, pairs, new, why)
            self.answer(save)
            self.again.clear()
        except Moved:
            raise
        except tool.Fault as fault:
            self.settle()
            self.fail(fault, str(fault))
        except Ended as ended:
            self.programs.close()
            self.fail(ended, str(ended))
        except Exception as error:      # a slip of cobtool may not end what a person sits before
            own_faults.show(error)
            self.forget()
            self.fail(error, f"cobtool itself: {own_faults.words_of(error)}; the next save begins afresh")

    def fail(self, error, words):
        """Says what went wrong; what may pass by itself is tried again."""
        self.again.failed(error)
        self.say("fault", safe_text.readable(words))

    def settle(self):
        """What was read can be told once the files stand still, unless they never do."""
        if not self.watch.stands_still() and self.looks > 1:
            raise Moved

    def forget(self):
        """Forgets all that was kept, on the page too."""
        self.programs.close()
        self.programs, self.answers, self.run = Programs(self.words, self.children), Answers(), Run()
        self.is_first = True
        self.drawn = {}
        self.feed.clear()

    def say(self, state, words, waits=""):
        """What is the matter, on the page; a fault that was tried again and stays is told once."""
        if (state, words) != self.said or state != "fault":
            self.feed.put({"status": status_item(state, words, waits, time.strftime("%H:%M:%S"))})
        self.said = state, words

    def read(self, save):
        """The commands of the script with their replies, and the project that they make."""
        with save.step("read"):
            try:
                commands = reader.Reader(read_text=self.watch.read_text).commands(self.path)
                self.rules = acceptance.rules_of(self.accepted, self.watch.read_text) if self.accepted else []
            finally:
                self.watch.take(self.path)
        with save.step("project apart"):
            given, made = self.programs.apart([command.text() for command in commands if not is_quiet(command)])
            return pairs_of(commands, iter(given)), made

    # The open cobench.

    def lead(self, save, pairs, new, why):
        """Has the open cobench make a project: by edits, or afresh where that isn't possible."""
        self.answered, self.programs.is_long = None, len(self.run.windows) > SHORT
        if self.programs.opened and not why:
            try:
                if self.send_edits(save, pairs, new):
                    return
                why = "the edits made another project than the script"
            except Ended as ended:
                why = str(ended)
        self.start_afresh(save, pairs, new, why)

    def send_edits(self, save, pairs, new):
        """Sends the edits to the open cobench; whether its project is then the new one."""
        with save.step("edits"):
            save.edits = self.programs.edits_to(new)
            if len(save.edits) > MOST_EDITS:
                self.settle()
            self.programs.ask(save.edits, new)
            return self.is_led(pairs)

    def start_afresh(self, save, pairs, new, why):
        """Starts a cobench that makes a project."""
        self.settle()
        save.why, save.edits = safe_text.readable(why), None
        with save.step("started afresh"):
            self.programs.start(new)
            if not self.is_led(pairs):
                raise Ended(f"{self.words[0]} makes another project of the commands that it prints")

    def is_led(self, pairs):
        """Whether the open cobench has the new project; while it works the session is made whose answers come from it."""
        self.answered = self.answered or session.Session(self.path, pairs, {})
        return self.programs.is_led()

    # What it answers.

    def answer(self, save):
        """Takes what the open cobench answers, and puts it into the feed: first all but the run."""
        answered = self.answered
        with save.step("diagnostics and files"):
            answered.answers = self.programs.answers()
        with save.step("lists"):
            answers = self.answers.copy()
            answers.rules = self.rules
            evidence = self.evidence = answers.evidence(answered)
            items = answers.take(answered, evidence, self.is_first)
        if self.programs.is_long or not self.programs.opened.is_answering():
            self.tell(answers, items)
            self.say("working", "the script was saved", "trace")
            items = {}
        while self.programs.parts:
            self.answer_part(save, answers)
        with save.step("trace"):
            text = self.programs.opened.take_text()
        with save.step("picture"):
            self.draw(save, text, answers)
            items.update(answers.of_run(answered, evidence, self.run, text))
        self.tell(answers, {**items, **self.drawn}, lambda: self.ended(save, answered))
        self.is_first, self.drawn = False, {}

    def answer_part(self, save, answers):
        """Puts the run into the feed as far as it is there, unless all of it is by then. What goes by the whole run stays
        as it was: a boot that comes late isn't missing."""
        with save.step("part"):
            horizon, text = self.programs.take_part()
        with save.step("its picture"):
            self.draw(save, text, answers, horizon)
        if self.programs.parts or not self.programs.opened.is_answering():
            self.feed.put(self.drawn)

    def tell(self, answers, items, ended=dict):
        """Puts into the feed what comes of answers, once the files have stood still, and what `ended` gives then."""
        if self.answers is not answers:
            self.settle()
        self.answers = answers
        self.feed.put({**items, **ended()})

    def draw(self, save, text, answers, known=None):
        """Draws the run, whole or to a moment: the items that are other than before."""
        changed = self.run.take(text, self.evidence, answers.sheets, known)
        save.changed.update(changed)
        save.of_windows, save.lines = len(self.run.windows), text.count(b"\n")
        self.drawn.update({f"window/{number}": self.run.content(number) for number in changed})
        self.drawn.update(self.run.new_sorts())
        self.drawn["run"] = self.run.about()

    def ended(self, save, answered):
        """The items by which a save is over: what it cost goes into the ledger."""
        self.records = self.records[1 - MOST_SAVES:] + [save.record()]
        count = sum(not reply.is_accepted() for _, reply in answered.pairs)
        return {"ledger": self.records, "status": status_item("well", refusals_text(count), "", save.clock)}


def status_item(state, words, waits, clock):
    """What is the matter: well, working or fault; in words; what is waited for; and since when."""
    return {"state": state, "words": words, "waits": waits, "clock": clock}


def refusals_text(count):
    """That the page shows what the accepted commands make, where some were refused."""
    if not count:
        return ""
    return f"{count} command{'s were' if count > 1 else ' was'} refused: this is what the others make"
