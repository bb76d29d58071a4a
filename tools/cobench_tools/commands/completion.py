"""Prints what a shell needs to complete the words of cobtool."""
from .. import tool
from ..guide import completion, zsh_completion

SUMMARY = "print what bash or zsh needs to complete the words of cobtool"
SHELLS = {"bash": completion, "zsh": zsh_completion}

AFTER = """The package bash-completion reads it from this place at the next start of a shell:

  cobtool completion > ~/.local/share/bash-completion/completions/cobtool

Without that package, `eval "$(cobtool completion)"` does in ~/.bashrc. zsh reads it
from a folder of its fpath, under the name _cobtool. Status: 0."""


def arguments(parser):
    parser.epilog = AFTER
    parser.add_argument("--shell", choices=tuple(SHELLS), default="bash", help="the shell; bash if it isn't named")


def run(options):
    tool.put(SHELLS[options.shell]())
    return tool.DONE
