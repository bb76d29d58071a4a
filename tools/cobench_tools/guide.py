"""The manual page and the completion for bash and zsh, made of the words that the commands have."""
import argparse

from . import VERSION, main, tool

MANUAL = r""".TH COBTOOL 1 "" "cobtool {version}" "User Commands"
.SH NAME
cobtool \- check, export and explain CANopen networks that are scripts for cobench
.SH SYNOPSIS
.B cobtool
.I COMMAND
[\fIOPTION\fR ...] [\fIFILE\fR ...]
.SH DESCRIPTION
{about}
.SH COMMANDS
{commands}.SH EXIT STATUS
0 where all is well, 1 where something in the project is wrong, 2 where the command can't do its work, with one line on
why on the standard error.
.SH ENVIRONMENT
.TP
.B COBENCH
the program to run, with its words, where \-\-cobench doesn't say it
.TP
.B CI
where it is set, a script takes in files below its own folder alone, if \-\-within doesn't say another
.TP
.B COBTOOL_DEBUG
where it isn't empty, a fault of cobtool itself is shown as Python shows it
"""

ABOUT = """A script lays a CANopen network out as commands. cobench answers it; cobtool runs cobench over it and says what is wrong,
writes the files of the nodes, and tells what happens on the bus."""

COMPLETION = r"""# Completes the words of cobtool in bash. Made by `cobtool completion`.
_cobtool() {{
    local current=${{COMP_WORDS[COMP_CWORD]}} previous=${{COMP_WORDS[COMP_CWORD-1]}} command=${{COMP_WORDS[1]}} words=
    if [ "$COMP_CWORD" -eq 1 ]; then
        COMPREPLY=($(compgen -W "{commands} --help --version" -- "$current"))
        return
    fi
    case "$command" in
{actions}    esac
    case "$command $previous" in
{choices}    esac
    if [ -n "$words" ]; then
        COMPREPLY=($(compgen -W "$words" -- "$current"))
        return
    fi
    case "$current" in
    -*) ;;
    *) compopt -o filenames 2>/dev/null
       COMPREPLY=($(compgen -f -- "$current"))
       return ;;
    esac
    case "$command" in
{options}    esac
    COMPREPLY=($(compgen -W "$words" -- "$current"))
}}
complete -F _cobtool cobtool
"""

ZSH_COMPLETION = r"""#compdef cobtool
# Completes the words of cobtool in zsh. Made by `cobtool completion --shell zsh`.
_cobtool_action() {{
    if (( CURRENT == 2 )); then
        _describe action described
        return 1
    fi
    command="$command $words[2]"
    shift words
    (( CURRENT-- ))
}}
_cobtool() {{
    local -a described
    described=(
{commands}    )
    if (( CURRENT == 2 )); then
        _describe command described
        return
    fi
    local command=$words[2]
    shift words
    (( CURRENT-- ))
    case $command in
{actions}    esac
    case $command in
{options}    esac
}}
if [[ $zsh_eval_context[-1] == loadautofunc ]]; then _cobtool "$@"; else compdef _cobtool cobtool; fi
"""


def parsers():
    """The parser of each command, and behind it those of its actions, by their words."""
    found = []
    for command in main.COMMANDS:
        parser = main.parser_of(command)
        found.append((command, parser))
        found += [(f"{command} {action}", part) for action, part in parts_of(parser).items()]
    return found


def parts_of(parser):
    """The parsers of the actions of a command, by their names."""
    return next((action.choices for action in actions_of(parser) if isinstance(action, argparse._SubParsersAction)), {})


def actions_of(parser):
    """The words that a command can have."""
    return parser._actions


# The manual page.

def roff(text):
    """A text as the manual page has it: nothing in it is taken for a command of roff."""
    text = text.replace("\\", "\\e").replace("-", "\\-").replace("'", "\\(aq").replace("`", "\\(ga")
    return "\n".join("\\&" + line if line.startswith(".") else line for line in text.split("\n"))


def word_of(action):
    """A word as the manual page names it: in bold what is typed, in italics what stands for something."""
    metavar = action.metavar or ("|".join(action.choices) if action.choices else "")
    names = ", ".join(f"\\fB{roff(name)}\\fR" for name in action.option_strings)
    return f"{names} \\fI{roff(metavar)}\\fR".strip()


def manual_of(command, parser):
    """The part of the manual page on a command."""
    usage = " ".join(parser.format_usage().split())[len("usage: "):]
    lines = [f".SS {command}", roff(parser.description[:1].upper() + parser.description[1:] + "."), ".PP", roff(usage)]
    for action in actions_of(parser):
        if action.help and "--help" not in action.option_strings and "--version" not in action.option_strings:
            lines += [".TP", word_of(action), roff(action.help)]
    return "\n".join(lines + roff_paragraphs(parser.epilog)) + "\n"


def roff_paragraphs(text):
    """A text with its paragraphs, and its indented lines as they stand."""
    lines = []
    for is_fixed, line in tool.paragraphs(text):
        if line:
            lines += [".PP"] + ([".nf", roff(line), ".fi"] if is_fixed else [roff(line)])
    return lines


def manual():
    """The manual page."""
    commands = "".join(manual_of(command, parser) for command, parser in parsers())
    return MANUAL.format(version=VERSION, about=roff(ABOUT), commands=commands)


# The completion.

def choices_of(command, parser):
    """The lines of the completion on options of a command whose words are known."""
    return [f'    "{command} {name}") words="{" ".join(map(str, action.choices))}" ;;\n'
            for action in actions_of(parser) if action.choices for name in action.option_strings]


def options_of(command, parser):
    """The line of the completion on the options of a command."""
    names = [name for action in actions_of(parser) for name in action.option_strings if name.startswith("--")]
    return f'    {quoted(command)}) words="{" ".join(names)}" ;;\n'


def quoted(command):
    """The words of a command as one word of bash."""
    return f'"{command}"' if " " in command else command


def parts_line(command, parser):
    """The line of the completion on the action of a command, which is a part of the command's name from there on."""
    names = " ".join(parts_of(parser))
    behind = f'command="{command} ${{COMP_WORDS[2]}}"'
    line = f'    {command}) if [ "$COMP_CWORD" -eq 2 ]; then words="{names} --help"; else {behind}; fi ;;\n'
    return line if names else ""


def completion():
    """The completion for bash."""
    every = parsers()
    choices = "".join(line for command, parser in every for line in choices_of(command, parser))
    options = "".join(options_of(command, parser) for command, parser in every)
    actions = "".join(parts_line(command, parser) for command, parser in every)
    return COMPLETION.format(commands=" ".join(main.COMMANDS), actions=actions, choices=choices, options=options)


def zsh_text(text):
    """A text as it stands in a description between quotation marks and brackets."""
    return " ".join(text.split()).replace("'", "'\\''").replace("[", "(").replace("]", ")").replace(":", "\\:")


def zsh_option(action, name):
    """What _arguments takes for an option; one with a star can be given more than once."""
    name = f"*{name}" if isinstance(action, argparse._AppendAction) else name
    if action.nargs == 0:
        return f"'{name}[{zsh_text(action.help or '')}]'"
    values = f"({' '.join(map(str, action.choices))})" if action.choices else "_files"
    return f"'{name}[{zsh_text(action.help or '')}]:{zsh_text(action.metavar or 'value')}:{values}'"


def zsh_options_of(command, parser):
    """The lines of the completion for zsh on the words of a command."""
    words = [zsh_option(action, name) for action in actions_of(parser) for name in action.option_strings]
    return f"    {quoted(command)})\n        _arguments " + " \\\n            ".join(words + ["'*:file:_files'"]) + " ;;\n"


def zsh_described(parsers):
    """The lines that describe commands or actions."""
    return "".join(f"        '{name}:{zsh_text(parser.description)}'\n" for name, parser in parsers)


def zsh_parts_of(command, parser):
    """The lines that complete the action of a command, and take it for a part of the command's name."""
    parts = parts_of(parser).items()
    described = f"        described=(\n{zsh_described(parts)}        )\n"
    return f"    {command})\n{described}        _cobtool_action || return ;;\n" if parts else ""


def zsh_completion():
    """The completion for zsh."""
    every = parsers()
    commands = zsh_described((command, parser) for command, parser in every if " " not in command)
    return ZSH_COMPLETION.format(commands=commands, actions="".join(zsh_parts_of(*each) for each in every),
                                 options="".join(zsh_options_of(*each) for each in every))
