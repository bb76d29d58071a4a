"""A script as the editor has it, read in spite of what is wrong with it, for cobench and for what the editor asks."""
import os

from .. import reader, script, tool
from ..forms import bad_syntax
from .positions import bare


class Reading(reader.Reader):
    """Reads a script and what it takes in. What can't be taken in is left out, and told.

    faults  the commands that are left out, each with the reason
    files   the files that it names: scripts and data sheets, those that aren't there among them
    all     the commands of all scripts, comments and those that are left out among them
    """

    def __init__(self, documents, with_sheets=True):
        super().__init__(with_sheets, self.take_text)
        self.documents, self.faults, self.files, self.all = documents, [], [], []

    def take_text(self, path):
        """The text of a file that is taken in."""
        self.files.append(path)
        return self.documents.read_text(path)

    def text_of(self, path):
        """The text of a script; a row that is half written is as it was before."""
        text = super().text_of(path)
        document = self.documents.of(path)
        return text if document is None or document.edited is None else without_half(document, text, path)

    def commands(self, path):
        """The commands of a script and of those that it takes in, without comments and what can't be taken in."""
        found, raw = [], script.commands_of(self.text_of(path), path)
        for command in raw:
            self.all.append(command)
            try:
                if command.takes_script():
                    found += self.inside(command, self.commands)
                elif not self.is_comment(command):
                    self.fill(command)
                    found.append(command)
            except tool.Fault as fault:
                self.faults.append((command, str(fault)[len(str(command.place)) + 2:]))
        return found


def without_half(document, text, path):
    """The text of a document in which a row that is no whole command is what it was before it was edited."""
    row = document.edited
    if row >= len(document.rows) or "\r" in "".join(document.rows).replace("\r\n", ""):
        return text
    command = next((each for each in script.commands_of(text, path) if each.number == row + 1), None)
    if command is None or not is_half(command, path):
        return text
    rows = list(document.rows)
    rows[row] = before_it(document, path) + rows[row][len(bare(rows[row])):]
    return "".join(rows).encode("utf-8", "surrogatepass")


def before_it(document, path):
    """What a row was before it was edited, where that was a whole command of one line, else nothing."""
    commands = script.commands_of(document.before.encode("utf-8", "surrogatepass"), path)
    return "" if any(begins_block(each) or is_half(each, path) for each in commands) else document.before


def begins_block(command):
    """Whether the lines behind a command would be its block."""
    return command.name == b"eds" and script.lines_wanted(command.words) is not None


def is_half(command, path):
    """Whether a command isn't whole: it has no form, or names no file that is there."""
    if command.is_comment():
        return False
    if command.file is None:
        return bad_syntax(command) is not None
    return not command.file or not os.path.isfile(script.beside(path, command.file))
