"""What goes to the editor without being asked for: diagnostics, and words to the user."""
import threading

WARNING = 2


class Client:
    """The editor, as scripts see it; several threads talk to it.

    arrange  is called where a script is made of other files than before
    """

    def __init__(self, writer, documents, arrange):
        self._writer, self._documents, self.arrange = writer, documents, arrange
        self._found, self._lock = {}, threading.Lock()

    def notify(self, method, params):
        self._writer.write({"jsonrpc": "2.0", "method": method, "params": params})

    def warn(self, text):
        """Tells the user something, in words."""
        self.notify("window/showMessage", {"type": WARNING, "message": text})

    def diagnostics(self, script, uri, found):
        """Publishes what a script says of a file, with what other scripts say of it."""
        with self._lock:
            mine = self._found.setdefault(uri, {})
            mine[script] = found
            if not found:
                del mine[script]
            whole = [each for place, several in enumerate(mine.values()) for each in several
                     if not any(each in other for other in list(mine.values())[:place])]
            self.notify("textDocument/publishDiagnostics", self._params(uri, whole))

    def found_in(self, uri):
        """The diagnostics of a file, as they were published last."""
        with self._lock:
            return [each for several in self._found.get(uri, {}).values() for each in several]

    def _params(self, uri, found):
        with self._documents.lock:
            opened = [each.version for each in self._documents.opened.values() if each.uri == uri]
        version = {"version": opened[0]} if opened and opened[0] is not None else {}
        return {"uri": uri, "diagnostics": found, **version}
