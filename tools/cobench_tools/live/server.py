"""The page over HTTP: on this machine alone, for browsers that ask by its own name and know its word.

Its paths are fixed, and there is nothing of the disk. It is only read, but for one wish: to open a line in an editor.
"""
import base64
import errno
import hashlib
import hmac
import http.client
import http.server
import re
import sys
import time
import urllib.parse

from .. import bundle, own_faults

ADDRESS = "127.0.0.1"
READ_METHODS = ("GET", "HEAD")
WORD = "k"              # what the address calls its word, which is no cookie: other servers of the machine would get that
STILL_HERE = 10.0       # seconds after which a browser is told that nothing is new
LONGEST_WRITE = 30.0    # seconds for which a browser may take nothing of what it is sent

SHORT_OF = (errno.EMFILE, errno.ENFILE, errno.ENOBUFS, errno.ENOMEM)
PAUSE = 0.1             # seconds until a connection is taken on again, where the system is short of something
LOOK = 0.1              # seconds between two looks whether the server is to end

HEADERS = {"Cache-Control": "no-store", "X-Content-Type-Options": "nosniff", "Referrer-Policy": "no-referrer",
           "Cross-Origin-Resource-Policy": "same-origin",
           "Content-Security-Policy": "default-src 'none'; frame-ancestors 'none'"}


def policy(page):
    """What the page may do: run its own script, and ask this server."""
    script = re.search(r"<script>(.*?)</script>", page, re.DOTALL).group(1)
    digest = base64.b64encode(hashlib.sha256(script.encode()).digest()).decode()
    return (f"default-src 'none'; script-src 'sha256-{digest}'; style-src 'unsafe-inline'; img-src data:; "
            "connect-src 'self'; base-uri 'none'; form-action 'none'; frame-ancestors 'none'")


def hosts_of(port):
    """What a browser calls the server; it leaves the port of HTTP out."""
    names = (ADDRESS, "localhost")
    return {f"{name}:{port}" for name in names} | ({*names} if port == http.client.HTTP_PORT else set())


class Server(http.server.ThreadingHTTPServer):
    """Serves the page of a title, the items of a feed, and the files that `saved` gives by their names.

    word   what the address has to have, "" where anybody of this machine may look
    opens  opens a line of a file in the user's editor, and says why it can't; None where there is no editor
    """

    daemon_threads = True

    def __init__(self, port, title, feed, saved, word="", opens=None):
        super().__init__((ADDRESS, port), Handler)
        self.feed, self.saved, self.word, self.opens, self.is_closing = feed, saved, word, opens, False
        self.page = bundle.live_page({"title": title, "opens": opens is not None})
        self.policy = policy(self.page)
        self.hosts = hosts_of(self.server_port)

    @property
    def address(self):
        return f"http://{ADDRESS}:{self.server_port}/" + (f"?{WORD}={self.word}" if self.word else "")

    def is_known(self, query):
        """Whether the query of an address has the word."""
        given = urllib.parse.parse_qs(query).get(WORD, [""])[0]
        return not self.word or hmac.compare_digest(given.encode("utf-8", "replace"), self.word.encode())

    def serve(self):
        """Serves until it is closed."""
        self.serve_forever(LOOK)

    def get_request(self):
        """Takes a connection on; where the system is short of something, only after a while."""
        try:
            return super().get_request()
        except OSError as error:
            if error.errno in SHORT_OF:
                time.sleep(PAUSE)
            raise

    def handle_error(self, request, client_address):
        """A browser that goes away is no error."""
        error = sys.exc_info()[1]
        if not isinstance(error, OSError):
            own_faults.show(error)

    def close(self):
        self.is_closing = True
        self.feed.wake()
        self.shutdown()
        self.server_close()


class Handler(http.server.BaseHTTPRequestHandler):
    timeout = LONGEST_WRITE
    server_version, sys_version = "cobtool", ""

    def log_message(self, *words):
        """Nothing is printed."""

    def __getattr__(self, name):
        """All methods are answered in one place."""
        if name.startswith("do_"):
            return self.answer
        raise AttributeError(name)

    def answer(self):
        """Answers a request."""
        path, _, query = self.path.partition("?")
        if self.headers.get("Host", "").lower() not in self.server.hosts:
            self.put(403, "this page has another name")
        elif self.command not in READ_METHODS and not self.is_wish(path):
            self.put(405, "the page is only read", Allow=", ".join(READ_METHODS))
        elif not self.server.is_known(query):
            self.put(403, "the address has no word, or an old one: open the address that cobtool live has printed")
        elif self.command in READ_METHODS:
            self.answer_path(path)
        else:
            self.open_line(urllib.parse.parse_qs(query))

    def is_wish(self, path):
        """Whether the page itself wishes that a line is opened, and there is an editor."""
        origin = self.headers.get("Origin", "").lower().partition("://")
        return (self.command, path) == ("POST", "/open") and origin[0] == "http" and origin[2] in self.server.hosts \
            and self.server.opens is not None

    def open_line(self, asked):
        """Opens a line that the page names."""
        line = asked.get("line", [""])[0]
        why = self.server.opens(asked.get("file", [""])[0], int(line)) if re.fullmatch("[0-9]{1,9}", line) else "no line"
        self.put(404 if why else 200, why or "opened")

    def answer_path(self, path):
        """Answers a request for a path."""
        name = re.fullmatch(r"/files/([0-9]+\.[a-z]+)", path)
        file = self.server.saved(name.group(1)) if name else None
        if path == "/":
            policy = {"Content-Security-Policy": self.server.policy}
            self.put(200, self.server.page, "text/html; charset=utf-8", **policy)
        elif path == "/feed":
            self.put_events()
        elif file:
            self.put(200, *file)
        else:
            self.put(404, "there is no such page")

    def send_error(self, code, message=None, explain=None):
        """What http.server itself refuses, with the headers of all answers."""
        self.request_version = "HTTP/1.0"
        self.put(code, http.HTTPStatus(code).phrase)

    def put(self, status, content, kind="text/plain; charset=utf-8", **more):
        """Puts an answer that is whole."""
        data = content.encode() if isinstance(content, str) else content
        self.send_response(status)
        for name, value in {**HEADERS, "Content-Type": kind, "Content-Length": str(len(data)), **more}.items():
            self.send_header(name, value)
        self.end_headers()
        if self.command != "HEAD":
            self.wfile.write(data)

    def put_events(self):
        """Puts the items of the feed, and then each time what is new, until the browser goes away."""
        self.send_response(200)
        for name, value in {**HEADERS, "Content-Type": "text/event-stream"}.items():
            self.send_header(name, value)
        self.end_headers()
        feed, seen = self.server.feed, self.last_seen()
        while self.command != "HEAD" and not self.server.is_closing:
            number, items = feed.since(seen, STILL_HERE)
            self.wfile.write(event_of(feed, number, items, seen == 0) if items else b": nothing new\n\n")
            self.wfile.flush()
            seen = number

    def last_seen(self):
        """The number of the last change that the browser has seen of this feed."""
        found = re.fullmatch(r"([0-9a-f]+)-([0-9]{1,15})", self.headers.get("Last-Event-ID", ""))
        return int(found.group(2)) if found and found.group(1) == self.server.feed.name else 0


def event_of(feed, number, items, is_whole):
    """The event that has these items; one with all of them takes the place of what the browser has."""
    texts = ",".join(f'"{name}":{text}' for name, text in items.items())
    return f'id: {feed.name}-{number}\ndata: {{"whole":{str(is_whole).lower()},"items":{{{texts}}}}}\n\n'.encode()
