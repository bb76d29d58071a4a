"""The program `cobtool`: it finds the command that its first word names, and has it do its work."""
import difflib
import importlib
import sys

from . import own_faults, tool, within

# The commands, in the order of a day's work. Each is the module of that name in commands/.
COMMANDS = (
    "start", "check", "export",
    "import", "matrix", "diff", "dbc", "load",
    "expand", "eds",
    "refusals", "explain", "stats", "timeline", "candump", "conform",
    "live", "lsp", "bus",
    "man", "completion",
)

ABOUT = """Checks, exports and explains a CANopen network that is written as a script for cobench.

commands:
{commands}

`cobtool COMMAND --help` tells the words of each, with an example.
Status: 0 where all is well, 1 where something in the project is wrong,
2 where the command can't do its work, with one line on why."""


def module_of(command):
    """The module of a command; `import` is a word of Python, so that its module has another name."""
    name = command if command != "import" else "import_"
    return importlib.import_module(f"{__package__}.commands.{name}")


class Overview(tool.Parser):
    """The parser for the words before a command, whose help lists the commands."""

    def __init__(self):
        super().__init__("cobtool", "")
        self.usage = "cobtool COMMAND ..."

    def format_help(self):
        width = max(map(len, COMMANDS))
        lines = [f"  {command:{width}}  {module_of(command).SUMMARY}" for command in COMMANDS]
        self.description = ABOUT.format(commands="\n".join(lines))
        return super().format_help()


def parser_of(command):
    """The parser for the words of a command."""
    module = module_of(command)
    parser = tool.Parser(f"cobtool {command}", module.SUMMARY)
    module.arguments(parser)
    if command in within.COMMANDS:
        within.add_argument(parser)
    return parser


def no_command(word):
    """The fault of a first word that is no command."""
    near = difflib.get_close_matches(word, COMMANDS, 1)
    hint = f"is it {near[0]}" if near else "there are: " + ", ".join(COMMANDS)
    return tool.Fault(f"no command {word}; {hint}; cobtool --help tells more")


def run(words):
    """Runs the command that these words name, and gives its status."""
    if not words or words[0].startswith("-"):
        Overview().parse_args(words[:1])
        raise tool.Fault("a command is missing: " + ", ".join(COMMANDS) + "; cobtool --help tells more")
    if words[0] not in COMMANDS:
        raise no_command(words[0])
    if sys.stdout is None:
        raise tool.Fault("the standard output is closed")
    options = parser_of(words[0]).parse_args(words[1:])
    within.rule.choose(getattr(options, "within", None))
    return module_of(words[0]).run(options)


def main(words=None):
    """Runs `cobtool` with these words, or with those of the command line, and gives its status."""
    return ended(lambda: run(sys.argv[1:] if words is None else words))


def ended(work):
    """The status with which a work ends; why it can't be done is said in one line."""
    try:
        return work()
    except tool.Fault as fault:
        tool.say(fault)
    except KeyboardInterrupt:
        return 130
    except MemoryError:
        tool.say("there isn't enough memory")
    except OSError as error:
        tool.say(f"{error.filename}: {error.strerror}" if error.filename else error.strerror)
    except Exception as error:
        tool.say(own_fault(error))
    return tool.CANNOT


def own_fault(error):
    """What is told where cobtool itself is wrong; with COBTOOL_DEBUG it shows where."""
    if own_faults.is_debugging():
        raise error
    return f"a fault of cobtool itself, please tell its makers: {own_faults.words_of(error)}"
