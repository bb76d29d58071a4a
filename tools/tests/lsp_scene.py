"""An editor that talks with `cobtool lsp`: for tests over a cobench that stays open, or what stands in for it."""
import os
import queue
import sys
import threading
import time

from cobench_tools.lsp import framing
from cobench_tools.lsp.paths import uri_of
from cobench_tools.lsp.server import Server
from helper import kept_at

LONGEST = 60.0      # seconds to wait for an answer


def words():
    """What stands in for a cobench that stays open: the replies that are kept for these tests."""
    return [sys.executable, "-S", "-E", kept_at("open_stand_in"), kept_at(os.path.join("lsp", "replies")), "--edits"]


class Editor:
    """An editor with a server in a thread of this process, or over two streams that are given.

    found  the last diagnostics of each file, by its name
    said   what was told to the user
    """

    def __init__(self, program=None, source=None, target=None, options=None):
        self.found, self.said, self.versions, self._number = {}, [], {}, 0
        self._answers, self._notes, self._server = queue.Queue(), threading.Condition(), None
        self.server = None
        if source is None:
            source, target = self._serve(program or words())
        self.target, self._writer = target, framing.Writer(target)
        self._reader = threading.Thread(target=framing.read_all, args=(source, self._hear), daemon=True)
        self._reader.start()
        self.about = self.ask("initialize", {"processId": None, "rootUri": None, "capabilities": {},
                                             "initializationOptions": options})
        self.tell("initialized", {})

    def _serve(self, program):
        (to_server, target), (source, from_server) = os.pipe(), os.pipe()
        self.server = server = Server(os.fdopen(to_server, "rb"), os.fdopen(from_server, "wb"), program)
        self._server = threading.Thread(target=server.serve, daemon=True)
        self._server.start()
        return os.fdopen(source, "rb"), os.fdopen(target, "wb")

    def __enter__(self):
        return self

    def __exit__(self, *_):
        self.ask("shutdown", None)
        self.tell("exit", None)
        if self._server:
            self._server.join(LONGEST)
            assert not self._server.is_alive(), "the server doesn't end"

    # What it says.

    def tell(self, method, params):
        self._writer.write({"jsonrpc": "2.0", "method": method, "params": params})

    def send(self, method, params):
        """Asks for something: the number of the request."""
        self._number += 1
        self._writer.write({"jsonrpc": "2.0", "id": self._number, "method": method, "params": params})
        return self._number

    def answer(self, number):
        """The answer to a request, whole."""
        while True:
            message = self._answers.get(timeout=LONGEST)
            if message["id"] == number:
                return message

    def ask(self, method, params):
        """What a request gives."""
        message = self.answer(self.send(method, params))
        assert "error" not in message, message
        return message["result"]

    def refused(self, method, params):
        """The words by which a request is refused."""
        return self.answer(self.send(method, params))["error"]["message"]

    def open(self, name, text, language="cobench"):
        self.versions[name] = 1
        self.tell("textDocument/didOpen", {"textDocument": {"uri": uri_of(name), "languageId": language, "version": 1,
                                                            "text": text}})
        return self.wait(name)

    def change(self, name, *changes):
        """Changes a file: each change is (row, column, row, column, text), or a text for all of it."""
        self.hurry(name, *changes)
        return self.wait(name)

    def hurry(self, name, *changes):
        """Changes a file, and waits for nothing."""
        self.versions[name] += 1
        self.tell("textDocument/didChange", {"textDocument": {"uri": uri_of(name), "version": self.versions[name]},
                                             "contentChanges": [change_of(change) for change in changes]})

    def save(self, name):
        self.tell("textDocument/didSave", {"textDocument": {"uri": uri_of(name)}})

    def close(self, name):
        self.tell("textDocument/didClose", {"textDocument": {"uri": uri_of(name)}})

    def at(self, method, name, row, column, **more):
        """What is asked of a place in a file."""
        return self.ask(f"textDocument/{method}", {"textDocument": {"uri": uri_of(name)},
                                                   "position": {"line": row, "character": column}, **more})

    def of(self, method, name, **more):
        """What is asked of a file."""
        return self.ask(f"textDocument/{method}", {"textDocument": {"uri": uri_of(name)}, **more})

    # What it hears.

    def _hear(self, message):
        if "id" in message:
            self._answers.put(message)
            return True
        with self._notes:
            params = message["params"]
            if message["method"] == "textDocument/publishDiagnostics":
                self.found[os.path.basename(params["uri"])] = params.get("version"), params["diagnostics"]
            else:
                self.said.append(params["message"])
            self._notes.notify_all()
        return True

    def until(self, is_so):
        """Waits until something that it has heard is so."""
        with self._notes:
            assert self._notes.wait_for(is_so, LONGEST), (self.found, self.said)

    def wait(self, name):
        """The diagnostics of a file in its last version."""
        self.until(lambda: self.found.get(os.path.basename(name), (None,))[0] == self.versions[name])
        return self.wrong(name)

    def wrong(self, name):
        """What is wrong with a file: row, first and last column, severity, code, and text of each."""
        return [(each["range"]["start"]["line"], each["range"]["start"]["character"], each["range"]["end"]["character"],
                 each["severity"], each["code"], each["message"]) for each in self.found[os.path.basename(name)][1]]


def change_of(change):
    """A change as the protocol has it."""
    if isinstance(change, str):
        return {"text": change}
    row, column, last, end, text = change
    place = {"start": {"line": row, "character": column}, "end": {"line": last, "character": end}}
    return {"range": place, "text": text}


def settle(editor):
    """Waits until the server has looked at all that it was told: a request goes behind what was told before."""
    editor.ask("workspace/symbol", {"query": ""})
    until = time.monotonic() + LONGEST
    while not all(script.is_settled() for script in list(editor.server.scripts.values())):
        assert time.monotonic() < until, "it never settles"
        time.sleep(.02)


def quiet(editor, seconds=0.5):
    """Waits until nothing was heard for a while."""
    heard = None
    while heard != (heard := str((editor.found, editor.said))):
        time.sleep(seconds)
