"""Serves an editor by the Language Server Protocol: what is wrong while one types, and what stands where."""
import os
import signal
import sys

from .. import session, tool
from ..live.children import Children
from ..live.programs import probe
from ..lsp.server import Server

SUMMARY = "serve an editor while a script is typed (Language Server Protocol)"

AFTER = f"""An editor starts it, and talks with it over the standard input and output. For each
open script it keeps a cobench, to which what is typed goes as edits, and says what
`cobtool check` says, at the words that are wrong; of a data sheet (.eds) or DCF that
no open script takes in it says what is wrong with that file alone. docs/editors.md
has what to write into Neovim, Vim, Emacs, Helix, Kate and VS Code.

{session.PROGRAM} Status: 0 where the editor ended it in order (shutdown, exit), 1
where it went away, 2 where cobench can't be run.

  cobtool lsp --cobench ./cobench"""


def arguments(parser):
    parser.epilog = AFTER
    parser.add_argument("--stdio", action="store_true",
                        help="talk over the standard input and output, as it does without it")
    session.add_arguments(parser)


def stop(*_):
    raise KeyboardInterrupt


def run(options):
    words = session.program(options.cobench)
    if sys.stdin is None:
        raise tool.Fault("the standard input is closed")
    probe(words, Children())
    signal.signal(signal.SIGTERM, stop)
    source, target = os.fdopen(os.dup(sys.stdin.fileno()), "rb"), os.fdopen(os.dup(sys.stdout.fileno()), "wb")
    return tool.DONE if Server(source, target, words).serve() else tool.FOUND
