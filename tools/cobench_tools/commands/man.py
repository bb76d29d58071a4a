"""Prints the manual page of cobtool."""
from .. import tool
from ..guide import manual

SUMMARY = "print the manual page of cobtool, made of the help of all commands"

AFTER = """It is text for man, which finds it at this place:

  cobtool man > ~/.local/share/man/man1/cobtool.1

`cobtool man | man -l -` shows it at once. Status: 0."""


def arguments(parser):
    parser.epilog = AFTER


def run(options):
    tool.put(manual())
    return tool.DONE
