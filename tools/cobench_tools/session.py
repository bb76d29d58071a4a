"""A session of cobench over a script: what the program answers, each reply with the command that it is to."""
import argparse
import os
import shlex
import shutil
import subprocess
from typing import Callable, Dict, List, Optional, Sequence, Tuple

from . import project, reader, replies, script, tool

ROOT = os.path.dirname(os.path.dirname(os.path.dirname(os.path.abspath(__file__))))
BUILT = os.path.join(ROOT, "crates", "cobench", "out", "cobench")

# What the help of a command says on `--cobench`.
PROGRAM = """PROGRAM is, where --cobench doesn't say it, that of the variable COBENCH, else
cobench on the path, else crates/cobench/out/cobench of the checkout that cobtool
stands in."""

OF_A_NODE = ("dcf", "cdcf")

Pairs = List[Tuple[script.Command, replies.Reply]]
Answers = Dict[str, Optional[List[bytes]]]
Part = Callable[[List[script.Command]], List[script.Command]]


def add_arguments(parser: argparse.ArgumentParser) -> None:
    """The word that chooses the program."""
    parser.add_argument("--cobench", metavar="PROGRAM", help="the program to run, with its words")


def program(given: Optional[str]) -> List[str]:
    """The words that start cobench."""
    chosen = os.environ.get("COBENCH") if given is None else given
    if chosen:
        return words_of(chosen)
    found = shutil.which("cobench") or (BUILT if os.access(BUILT, os.X_OK) else None)
    if not found:
        built = f" or at {BUILT}" if os.path.isdir(os.path.join(ROOT, "crates")) else ""
        raise tool.Fault(f"no cobench on the path{built}; --cobench PROGRAM or the variable COBENCH names one, and "
                         "README.md, under Install, says how to get it")
    return [found]


def words_of(chosen: str) -> List[str]:
    """The words of a program that the user chose."""
    try:
        words = shlex.split(chosen)
    except ValueError as error:
        raise tool.Fault(f"the program {chosen}: {error}") from None
    if not words:
        raise tool.Fault("the program that --cobench or COBENCH names has no name")
    return words


def replies_to(words: List[str], text: bytes) -> List[replies.Reply]:
    """The replies that a program writes for an input."""
    try:
        done = subprocess.run(words, input=text, stdout=subprocess.PIPE, stderr=subprocess.PIPE)
    except OSError as error:
        raise tool.Fault(f"{words[0]}: {error.strerror}") from None
    if done.returncode:
        why = done.stderr.decode("utf-8", "replace").strip().splitlines()
        raise tool.Fault(f"{words[0]} ended with status {done.returncode}" + (f": {why[-1]}" if why else ""))
    session = replies.session_of(words[0], done.stdout)
    if session.cut:
        raise tool.Fault(f"{session.cut}: the replies are cut")
    return session.replies


class Session:
    """A script that cobench has answered, with queries asked behind it.

    path     the script
    pairs    each of its commands with the reply to it
    project  what its accepted edits make
    answers  the lines that each query answers
    """

    def __init__(self, path: str, pairs: Pairs, answers: Answers) -> None:
        self.path, self.pairs, self.answers = path, pairs, answers
        self.project = project.after(pairs)

    def lines(self, query: str, node: Optional[int] = None) -> List[bytes]:
        """What a query that was asked for answers at the end of the script: its lines."""
        asked = query if node is None else f"{query} {node}"
        found = self.answers[asked]
        if found is None:
            raise tool.Fault(f"cobench refused {asked}")
        return found


def queries_of(names: Sequence[str], commands: Sequence[script.Command]) -> List[str]:
    """The queries of these names: those of a node for each node that the script may make."""
    words = [command.words[1] for command in commands if command.name == b"node" and len(command.words) > 1]
    nodes = {number for number in map(script.number_of, words) if number is not None}
    asked = [name for name in names if name not in OF_A_NODE]
    return asked + [f"{name} {node}" for node in sorted(nodes) for name in names if name in OF_A_NODE]


def run(path: str, given: Optional[str] = None, names: Sequence[str] = (), part: Optional[Part] = None) -> Session:
    """The session of a script, by the program that `--cobench` gave; `names` are those of queries to ask behind it.

    part  takes the commands of the script, and gives those that are wanted
    """
    commands = reader.read(path)
    commands = part(commands) if part else commands
    queries = queries_of(names, commands)
    text = b"".join([command.text() for command in commands] + [f"{query}\n".encode() for query in queries])
    answers = replies_to(program(given), text)
    if len(answers) != len(commands) + len(queries):
        raise tool.Fault(f"{len(answers)} replies to {len(commands) + len(queries)} commands")
    behind = zip(queries, answers[len(commands):])
    return Session(path, list(zip(commands, answers)), {query: reply.lines for query, reply in behind})
