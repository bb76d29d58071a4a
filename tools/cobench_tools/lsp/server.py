"""The server: it reads what the editor says, has scripts follow it, and answers what is asked."""
import queue
import threading

from .. import VERSION, tool
from . import features, framing
from .client import Client
from .documents import Documents
from .paths import key_of, path_of
from .scripts import OpenScript

NO_METHOD, BAD_PARAMS, OWN_FAULT, REFUSED, CANCELLED, NOT_READY = -32601, -32602, -32603, -32803, -32800, -32002
INCREMENTAL = 2
ARRANGE = {"method": "$/arrange"}       # what the server says to itself


class Server:
    """A server over two streams, with the words that start cobench.

    documents  the files as the editor has them
    scripts    the scripts and data sheets that are followed, by the identities of their files
    outlines   what stands where in each script (outline.Outline)
    options    what the editor wants: `values`, whether inlay hints show values in words
    """

    def __init__(self, source, target, words):
        self.words, self.documents, self.scripts, self.options = words, Documents(), {}, {"values": False}
        self.outlines = {}
        self._source, self._writer = source, framing.Writer(target)
        self._queue, self._cancelled = queue.Queue(), set()
        self.client = Client(self._writer, self.documents, lambda: self._queue.put(ARRANGE))
        self._is_ready = self._is_shut = False
        self._stopped = []

    def serve(self):
        """Serves until the editor ends it: whether it did so in order."""
        reader = threading.Thread(target=self._read, daemon=True)
        reader.start()
        try:
            while True:
                message = self._queue.get()
                if message is None or message.get("method") == "exit":
                    return self._is_shut
                self._take(message)
        finally:
            self.close()

    def close(self):
        """Ends all scripts with their cobenches."""
        scripts, self.scripts, self._stopped = [*self.scripts.values(), *self._stopped], {}, []
        for each in scripts:
            each.stop()
        for each in scripts:
            each.end()

    def _stop(self, key):
        """A script is followed no longer."""
        script = self.scripts.pop(key, None)
        if script:
            script.stop()
            self.outlines.pop(script.path, None)
            self._stopped = [each for each in self._stopped if each.is_alive()] + [script]

    # What comes in.

    def _read(self):
        framing.read_all(self._source, self._hear)
        self._queue.put(None)

    def _hear(self, message):
        """Takes a message from the stream: whether more may come."""
        if not isinstance(message, dict):
            return True
        if message.get("method") == "$/cancelRequest":
            self._cancelled.add((message.get("params") or {}).get("id"))
        else:
            self._queue.put(message)
        return message.get("method") != "exit"

    def _take(self, message):
        """Does what a message asks for; an answer of the editor asks for nothing."""
        method, number = message.get("method"), message.get("id")
        if not isinstance(method, str):
            return
        try:
            result = self._result(method, message.get("params") or {}, number)
        except Wrong as wrong:
            self._answer(number, error={"code": wrong.code, "message": wrong.text})
        except (KeyError, TypeError, IndexError, AttributeError, ValueError) as error:
            self._answer(number, error={"code": BAD_PARAMS, "message": f"{method}: {type(error).__name__}: {error}"})
        except Exception as error:
            self._answer(number, error={"code": OWN_FAULT, "message": f"{method}: {type(error).__name__}: {error}"})
        else:
            self._answer(number, result=result)
        if self._queue.empty():
            self._cancelled.clear()     # what is cancelled now is answered already

    def _result(self, method, params, number):
        """What a request gives, None for what is told alone."""
        if number is not None and number in self._cancelled:
            raise Wrong(CANCELLED, "cancelled")
        if method in LIFE:
            return LIFE[method](self, params)
        if not self._is_ready or self._is_shut:
            raise Wrong(NOT_READY, "the server isn't initialized, or was shut down")
        if method in TOLD:
            return TOLD[method](self, params)
        if method in features.FEATURES:
            try:
                return features.FEATURES[method](self, params)
            except tool.Fault as fault:
                raise Wrong(REFUSED, str(fault)) from None
        raise Wrong(NO_METHOD, f"no method {method}")

    def _answer(self, number, **what):
        if number is not None:
            self._writer.write({"jsonrpc": "2.0", "id": number, **what})

    # Its life.

    def _initialize(self, params):
        self._is_ready = True
        self._configure(params.get("initializationOptions"))
        return {"serverInfo": {"name": "cobtool", "version": VERSION},
                "capabilities": {"textDocumentSync": {"openClose": True, "change": INCREMENTAL, "save": True},
                                 **features.CAPABILITIES}}

    def _configure(self, options):
        """Takes what the editor wants; it may stand under `cobtool`."""
        options = options if isinstance(options, dict) else {}
        options = options.get("cobtool", options)
        self.options["values"] = bool(isinstance(options, dict) and options.get("values"))

    def _shutdown(self, params):
        self._is_shut = True
        self.close()

    # What is open.

    def _opened(self, params):
        given = params["textDocument"]
        self.documents.open(given["uri"], given.get("version"), given["text"])
        self._arrange()
        self._touch(path_of(given["uri"]))

    def _changed(self, params):
        given = params["textDocument"]
        document = self.documents.of(path_of(given["uri"]))
        if document is None:
            raise Wrong(BAD_PARAMS, f"{given['uri']} isn't open")
        with self.documents.lock:
            document.change(params["contentChanges"], given.get("version"))
        for other in list(self.documents.opened.values()):
            if other is not document:
                other.leave()
        self._touch(document.path)

    def _saved(self, params):
        self.leave(path_of(params["textDocument"]["uri"]))

    def _closed(self, params):
        path = path_of(params["textDocument"]["uri"])
        self.documents.close(params["textDocument"]["uri"])
        self._stop(key_of(path))
        self._arrange()
        self._touch(path)

    def leave(self, path, row=None):
        """The row of a file that was edited is left, where it isn't this one: half a line counts from then on."""
        document = self.documents.of(path)
        if document and document.edited is not None and document.edited != row:
            document.leave()
            self._touch(path)

    def _touch(self, path):
        """A file is another: the scripts that are made of it look at it."""
        for script in self.scripts.values():
            if script.has(path):
                script.touch()

    def _arrange(self, params=None):
        """Each open file is followed by itself but where an open script takes it in."""
        for document in list(self.documents.opened.values()):
            key = key_of(document.path)
            inside = any(other.has(document.path) for each, other in self.scripts.items() if each != key)
            if inside and key in self.scripts:
                self._stop(key)
            elif not inside and key not in self.scripts:
                self.scripts[key] = OpenScript(document.path, self.documents, self.words, self.client)
                self.scripts[key].start()

    def scripts_of(self, path):
        """The scripts that are made of a file, the one that it is first."""
        own = self.scripts.get(key_of(path))
        return ([own] if own else []) + [each for each in self.scripts.values() if each is not own and each.has(path)]


class Wrong(Exception):
    """Why a request has no result, with the code of the protocol."""

    def __init__(self, code, text):
        super().__init__(text)
        self.code, self.text = code, text


def nothing(server, params):
    """What changes nothing here."""


LIFE = {
    "initialize": Server._initialize, "shutdown": Server._shutdown, "initialized": nothing, "$/setTrace": nothing,
    "$/arrange": Server._arrange,
}
TOLD = {
    "textDocument/didOpen": Server._opened, "textDocument/didChange": Server._changed,
    "textDocument/didClose": Server._closed, "textDocument/didSave": Server._saved,
    "workspace/didChangeWatchedFiles": lambda server, params: touch_all(server),
    "workspace/didChangeConfiguration": lambda server, params: server._configure(params.get("settings")),
}


def touch_all(server):
    for script in server.scripts.values():
        script.touch()
