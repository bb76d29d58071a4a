"""A cobench that is kept for an open script: each state of the script goes to it as the edits that make it."""
import functools

from .. import findings, hints, judgement, real_limits, session, slips, tool
from ..live.answers import Answers
from ..live.children import Children
from ..live.kept_faults import KeptFaults
from ..live.opened import Ended, lines_of
from ..live.quiet import is_quiet, pairs_of
from ..live.run import Run
from .programs import Asked


MOST_LINES = 20_000     # of a run of more lines the boots alone are judged, as it is gone through anew each time


class State:
    """What is known of a state of a script.

    reading   how it was read
    answered  the session (session.Session), and `evidence` what the causes are told from
    refusals  the commands that were refused
    found     what is wrong with it but for the run, and `run_found` what the run shows
    boots     the boots of each node, None until the run is there
    run       the run (live.run.Run)
    network   its network with its traffic and load, None until somebody asked for it (hover.py)
    """

    def __init__(self, reading, answered, evidence, faults):
        self.reading, self.answered, self.evidence = reading, answered, evidence
        self.project = answered.project
        self.refusals = hints.refusals(answered.pairs)
        self.found = findings.diagnosed(evidence) + findings.unused_values(evidence) + slips.of(evidence)
        self.found += real_limits.of(evidence) + faults
        self.run_found, self.boots, self.run, self.network = [], None, None, None

    def take_run(self, run, text):
        """Takes the run of this state, and its text."""
        self.run, self.boots = run, run.boots()
        if text.count(b"\n") > MOST_LINES:
            said_of = functools.partial(run.last_said, self.evidence)
            self.run_found = findings.of_boots(self.evidence, self.boots, said_of)
        else:
            self.answered.answers["trace"] = lines_of(text)
            self.run_found = judgement.of_run(self.evidence)


class Kept:
    """The cobench of a script.

    warn  tells the user in words that it had to be started again

    `is_other_work` says whether a newer state waits: a cobench that says nothing is given up then.
    """

    def __init__(self, path, words, warn, is_other_work):
        self.path, self.words, self.warn = path, words, warn
        self._children = Children(is_other_work)
        self.programs, self._answers, self._run = Asked(words, self._children), Answers(), Run()
        self._faults = KeptFaults()

    def state(self, reading, commands):
        """The state that some commands make, without their run."""
        try:
            return self._state(reading, commands)
        except (Ended, tool.Fault) as ended:
            self.warn(f"{ended}; it is started again")
            self.programs.close()
            return self._state(reading, commands)

    def _state(self, reading, commands):
        asked = [command for command in commands if not is_quiet(command)]
        given, made = self.programs.made_by(asked)
        answered = session.Session(self.path, pairs_of(commands, iter(given)), {})
        self._lead(made)
        answered.answers = self.programs.answers()
        evidence = self._answers.evidence(answered)
        return State(reading, answered, evidence, self._faults.of(evidence))

    def _lead(self, made):
        """Has the open cobench make a project: by edits, or afresh where it isn't there or makes another one."""
        if self.programs.opened:
            self.programs.ask(self.programs.edits_to(made), made)
            if self.programs.is_led():
                return
            self.warn(f"{self.words[0]}: the edits made another project than the script; it is started again")
        self.programs.start(made)
        if not self.programs.is_led():
            raise Ended(f"{self.words[0]} makes another project of the commands that it prints")

    def take_run(self, state):
        """Asks for the run of the last state, and has it say what it shows."""
        text = self.programs.trace()
        self._run.take(text, state.evidence, self._answers.sheets)
        state.take_run(self._run, text)

    def rest(self):
        """What can wait until all was told."""
        self.programs.wait()

    def has_ended(self):
        """Whether the open cobench has ended by itself."""
        return bool(self.programs.opened) and not self.programs.opened.is_running()

    def close(self):
        """Ends the cobenches."""
        self.programs.close()

    def kill(self):
        """Kills the cobenches, from another thread too."""
        self._children.kill()
