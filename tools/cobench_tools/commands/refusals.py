"""Prints the commands of a script that were refused, with their lines."""
from .. import replies, tool
from ..hints import refusals
from ..reader import Reader

SUMMARY = "print the commands that were refused, with their lines and causes"

AFTER = """SCRIPT may have comments and `eds NAME <FILE`, as `cobtool expand` takes them.
REPLIES is what cobench answered. One of both can be - for the standard input.
Status: 0 where no command was refused, 1 where one was or has no reply, 2 where
the files can't be read or aren't of one session.

  cobtool expand network.txt | cobench > replies.txt
  cobtool refusals network.txt replies.txt"""


def lines_of(path, commands, raw, session):
    """The lines to print, of each refused command and of the first without a reply."""
    answered, rest = replies.pairs(path, commands, raw, session)
    if session.cut and not rest:
        raise tool.Fault(session.cut)
    lines = [line for refusal in refusals(answered) for line in refusal.lines()]
    if rest:
        why = session.cut or (f"the session ended with {session.fault}" if session.fault else "the replies end before it")
        shown = tool.shown(rest[0].line.strip(b" \t"))
        lines.append(f"{rest[0].place}: no reply: {shown}")
        lines.append(f"    {why}; {len(rest)} of {len(rest) + len(answered)} commands have none")
    return lines


def arguments(parser):
    parser.epilog = AFTER
    parser.add_argument("script", metavar="SCRIPT", help="the script, with comments and files; - is the standard input")
    parser.add_argument("replies", metavar="REPLIES", help="what cobench answered to it")


def run(options):
    tool.check_one_input(options.script, options.replies)
    reader = Reader(with_sheets=False)
    commands, session = reader.commands(options.script), replies.read_session(options.replies)
    lines = lines_of(options.script, commands, reader.raw, session)
    tool.put("".join(line + "\n" for line in lines))
    return tool.FOUND if lines else tool.DONE
