"""A script as git has it in a version, with the data sheets and scripts that it takes in."""
import os
import subprocess

from . import script, tool

MOST_FILES = 10_000


def git(folder, *words):
    """What git prints in a folder, as bytes."""
    try:
        done = subprocess.run(["git", "-C", folder or ".", *words], stdin=subprocess.DEVNULL, stdout=subprocess.PIPE,
                              stderr=subprocess.PIPE)
    except OSError as error:
        raise tool.Fault(f"git: {error.strerror}") from None
    if done.returncode:
        why = done.stderr.decode("utf-8", "replace").strip().splitlines()
        raise tool.Fault(why[-1] if why else f"git {words[0]} ended with status {done.returncode}")
    return done.stdout


def is_version(word):
    """Whether a word is REV:FILE: there is no such file, and something stands on both sides of the colon."""
    revision, colon, path = word.partition(":")
    return bool(colon and revision and path) and not os.path.exists(word)


class Version:
    """A script in a version.

    folder    a folder in the work tree, from where git is asked
    revision  which version, as git names it
    path      the script's path from the top of the work tree
    """

    def __init__(self, folder, revision, path):
        self.folder, self.revision, self.path = folder, revision, path

    @property
    def name(self):
        return f"{self.revision}:{self.path}"

    def put(self, root):
        """Writes the script and all that it takes in below a folder, each at its path; gives the script's place."""
        wanted, known = [(self.path, True)], set()
        while wanted:
            path, is_script = wanted.pop()
            if path not in known and len(known) < MOST_FILES:
                known.add(path)
                text = self.text_of(path)
                write(os.path.join(root, path), text)
                wanted += taken_in(path, text) if is_script else []
        return os.path.join(root, self.path)

    def text_of(self, path):
        if path.startswith(".."):
            raise tool.Fault(f"{path} is outside of the work tree, and in no version")
        return git(self.folder, "show", "--end-of-options", f"{self.revision}:{path}")


def taken_in(path, text):
    """The paths of the files that a script takes in, and whether each is a script; but for absolute ones."""
    return [(os.path.normpath(script.beside(path, command.file)), command.takes_script())
            for command in script.commands_of(text) if command.file and not os.path.isabs(command.file)]


def write(path, data):
    """Writes a file of a version."""
    try:
        os.makedirs(os.path.dirname(path), exist_ok=True)
        with open(path, "wb") as made:
            made.write(data)
    except OSError as error:
        raise tool.Fault(f"{path}: {error.strerror}") from None


def named(word):
    """The version that REV:FILE names; FILE is looked for from the top of the work tree, with ./ or ../ from here."""
    revision, _, path = word.partition(":")
    if path.startswith(("./", "../")):
        path = os.path.normpath(os.path.join(git("", "rev-parse", "--show-prefix").decode().rstrip("\n"), path))
    return Version("", revision, path)


def of_file(revision, path):
    """A version of a file of the work tree."""
    folder, name = os.path.split(path)
    return Version(folder, revision, git(folder, "rev-parse", "--show-prefix").decode().rstrip("\n") + name)
