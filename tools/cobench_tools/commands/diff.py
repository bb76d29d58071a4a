"""Says what differs between two networks."""
import os
import tempfile

from .. import difference, session, tool, versions, within

SUMMARY = "say what differs between two scripts, or between a script and its version in git"

AFTER = f"""Runs cobench on both scripts, and prints what changes from A to B: settings, nodes and
the values in their files, messages with their identifiers and PDOs, events, what
is wrong, and from which moment on the traces differ. What is new has a +, what is
gone a -. Of what is equal nothing is printed.

A and B are files, or REV:FILE, a version of git with the data sheets and scripts
that it takes in; FILE is looked for from the top of the work tree. With --git REV
the one SCRIPT is compared with its version REV.

{session.PROGRAM} Status: 0 where nothing differs, 1 where something does, 2 where a
script can't be read or cobench can't be run.

  cobtool diff --git HEAD network.txt
  cobtool diff HEAD~3:network.txt network.txt"""


def arguments(parser):
    parser.epilog = AFTER
    parser.add_argument("scripts", metavar="A [B]", nargs="+")
    parser.add_argument("--git", metavar="REV", help="compare SCRIPT with git's version REV of it")
    session.add_arguments(parser)


def both(options):
    """What A and B are: each a path or a version."""
    if len(options.scripts) != (1 if options.git else 2):
        raise tool.Fault("two scripts are compared, or with --git REV the one that is named; cobtool diff --help tells "
                         "more")
    if options.git:
        path = options.scripts[0]
        if path == "-":
            raise tool.Fault("git has no version of the standard input")
        return versions.of_file(options.git, path), path
    tool.check_one_input(*options.scripts)
    return [versions.named(word) if versions.is_version(word) else word for word in options.scripts]


def asked(script, options):
    """The network of a path or a version."""
    if isinstance(script, str):
        return difference.Side(session.run(script, options.cobench, difference.QUERIES))
    with tempfile.TemporaryDirectory() as root:
        within.rule.add(root)
        try:
            return difference.Side(session.run(script.put(root), options.cobench, difference.QUERIES))
        except tool.Fault as fault:
            raise tool.Fault(str(fault).replace(root + os.sep, f"{script.revision}:")) from None


def run(options):
    old, new = [asked(script, options) for script in both(options)]
    text = difference.text_of(old, new)
    tool.put(text)
    return tool.FOUND if text else tool.DONE
