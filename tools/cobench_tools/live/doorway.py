"""Opens the page in the browser by a file that this user alone can read: others see the words of programs that run."""
import html
import os
import pathlib
import shutil
import tempfile
import threading
import webbrowser

PAGE = """<!DOCTYPE html>
<meta charset="utf-8"><meta name="referrer" content="no-referrer">
<meta http-equiv="refresh" content="0;url={address}">
<title>cobench live</title><p><a href="{address}">The page</a>
"""


class Doorway:
    """The way into the page; the file stays until it is closed."""

    def __init__(self) -> None:
        self._folder = ""

    def open(self, address: str, is_secret: bool) -> None:
        """Opens an address, in a thread of its own: a browser in the terminal only comes back once it is left."""
        target = self._file_of(address) if is_secret else address
        threading.Thread(target=webbrowser.open, args=(target,), daemon=True).start()

    def _file_of(self, address: str) -> str:
        """The address of a file that leads to an address."""
        self._folder = tempfile.mkdtemp(prefix="cobtool-live-")
        path = os.path.join(self._folder, "page.html")
        with open(path, "w", encoding="utf-8") as file:
            file.write(PAGE.format(address=html.escape(address)))
        return pathlib.Path(path).as_uri()

    def close(self) -> None:
        if self._folder:
            shutil.rmtree(self._folder, ignore_errors=True)
