"""Opens a line of a file in the user's editor, by the words of `--editor`."""
import os
import shlex
import subprocess
import threading
from typing import List

from .. import tool

FILE, LINE = "{file}", "{line}"


class Editor:
    """An editor, by the words that start it, in which {file} and {line} stand for what it is to open."""

    def __init__(self, words: str) -> None:
        try:
            self._words = shlex.split(words)
        except ValueError as error:
            raise tool.Fault(f"--editor {words}: {error}") from None
        if not any(FILE in word for word in self._words[1:]):
            raise tool.Fault(f"--editor has no {FILE}: as in --editor 'code -g {FILE}:{LINE}'")

    def words_for(self, path: str, line: int) -> List[str]:
        """The words that open a line; the path is an absolute one, so that it is never taken for an option."""
        return [word.replace(LINE, str(line)).replace(FILE, os.path.abspath(path)) for word in self._words]

    def open(self, path: str, line: int) -> str:
        """Starts it; why that wasn't possible, else ""."""
        try:
            process = subprocess.Popen(self.words_for(path, line), stdin=subprocess.DEVNULL, stdout=subprocess.DEVNULL,
                                       stderr=subprocess.DEVNULL, start_new_session=True)
        except OSError as error:
            return f"{self._words[0]}: {error.strerror}"
        threading.Thread(target=process.wait, daemon=True).start()
        return ""
