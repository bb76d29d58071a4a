"""Who may read the page of `live`, and what each answer of its server has."""
import base64
import contextlib
import errno
import hashlib
import http.client
import os
import re
import socket
import subprocess
import sys
import time
import urllib.request
import webbrowser
from unittest import mock

from cobench_tools.live import doorway
from cobench_tools.live.feed import Feed
from cobench_tools.live.server import HEADERS, Server, hosts_of
from helper import COBTOOL
from live_scene import Scene, wait_until, words
from test_live import Served


def test_the_page_its_feed_and_files_ask_for_the_word():
    with Served("a-word_1") as served:
        assert served.server.address.endswith("/?k=a-word_1")
        for path in ("/", "/feed", "/files/5.dcf", "/nosuch"):
            for query in ("", "?k=", "?k=a-word_", "?k=a-word_11", "?k=A-WORD_1", "?x=a-word_1", "?k=%ff", "?k=%C3%A9",
                          "?k=x&k=a-word_1"):
                status, headers, body = served.ask("GET", path + query)
                assert status == 403 and b"word" in body, (path, query, status)
        assert served.ask("GET", "/?k=a-word_1")[0] == 200 and served.ask("GET", "/files/5.dcf?k=a-word_1")[2] == b"\xe4\n"
        assert served.ask("HEAD", "/feed?k=a-word_1")[0] == 200 and served.ask("GET", "/nosuch?k=a-word_1")[0] == 404


def test_each_start_has_another_word_unless_it_is_open_to_all():
    def address(*more):
        live = [sys.executable, COBTOOL, "live", "--port", "0", "--cobench", " ".join(words()), *more, Scene().script]
        with subprocess.Popen(live, stdout=subprocess.PIPE) as program:
            line = program.stdout.readline().decode()
            program.terminate()
        return line.split(" ")[0].partition("?k=")[2]

    one, other = address(), address()
    assert len(one) == len(other) == 22 and one != other and address("--open-to-all") == ""


def test_the_browser_gets_the_word_by_a_file_of_the_user():
    opened = []
    with mock.patch.object(webbrowser, "open", opened.append):
        way = doorway.Doorway()
        way.open("http://127.0.0.1:1/?k=secret", True)
        wait_until(lambda: opened)
        path = urllib.request.url2pathname(opened[0][len("file://"):])
        assert "secret" not in opened[0] and os.stat(os.path.dirname(path)).st_mode & 0o77 == 0
        with open(path) as file:
            assert "url=http://127.0.0.1:1/?k=secret" in file.read()
        way.close()
        assert not os.path.exists(path)
        doorway.Doorway().open("http://127.0.0.1:1/", False)
        wait_until(lambda: len(opened) > 1)
        assert opened[1] == "http://127.0.0.1:1/"


def test_at_the_port_of_http_browsers_leave_it_out():
    assert hosts_of(80) == {"127.0.0.1", "localhost", "127.0.0.1:80", "localhost:80"}
    assert hosts_of(8306) == {"127.0.0.1:8306", "localhost:8306"}
    with Served() as served:
        served.server.hosts = hosts_of(80)
        assert served.ask("GET", "/", "localhost")[0] == 200 and served.ask("GET", "/", "evil.example")[0] == 403


def raw(port, request):
    """The status and the headers of an answer to bytes."""
    with socket.create_connection(("127.0.0.1", port), timeout=10) as link:
        link.sendall(request)
        with contextlib.suppress(OSError):
            link.shutdown(socket.SHUT_WR)
        with link.makefile("rb") as lines:
            status = lines.readline().split()
            return int(status[1]), http.client.parse_headers(lines)


def test_every_answer_has_the_headers():
    with Served() as served:
        port = served.server.server_port
        host = b"Host: localhost:%d\r\n" % port
        asked = ((200, b"GET / HTTP/1.1\r\n" + host), (200, b"HEAD /feed HTTP/1.1\r\n" + host),
                 (404, b"GET /x HTTP/1.1\r\n" + host), (403, b"GET / HTTP/1.1\r\n"), (405, b"POST / HTTP/1.1\r\n" + host),
                 (414, b"GET /" + b"x" * 70000 + b" HTTP/1.1\r\n"), (400, b"GET / x y z\r\n"),
                 (431, b"GET / HTTP/1.1\r\nx: " + b"x" * 70000 + b"\r\n"), (505, b"GET / HTTP/3.0\r\n"),
                 (400, b"\xff\x00 \x1b[2J <script>\r\n"))
        for status, request in asked:
            found, headers = raw(port, request + b"\r\n")
            assert found == status and all(headers[name] for name in HEADERS), (status, found, headers.items())
            assert "'unsafe-inline'" not in re.sub("style-src[^;]*", "", headers["Content-Security-Policy"]), "of the page too"


def test_the_page_may_run_its_own_script_alone():
    with Served() as served:
        _, headers, page = served.ask("GET", "/")
        parts = dict(part.strip().split(" ", 1) for part in headers["Content-Security-Policy"].split(";"))
        script = re.search(rb"<script>(.*?)</script>", page, re.DOTALL).group(1)
        digest = base64.b64encode(hashlib.sha256(script).digest()).decode()
        assert parts["script-src"] == f"'sha256-{digest}'" and page.count(b"<script>") == 1 and parts["default-src"] == "'none'"
        assert parts["connect-src"] == "'self'"
        assert parts["frame-ancestors"] == parts["base-uri"] == parts["form-action"] == "'none'"


def test_a_file_is_asked_for_once():
    asked = []
    with Served() as served:
        served.server.saved = lambda name: asked.append(name) or (b"x", "text/plain")
        assert served.ask("GET", "/files/5.dcf")[2] == b"x" and asked == ["5.dcf"]


def test_a_server_that_is_short_of_files_rests():
    def short(_):
        raise OSError(errno.EMFILE, "")

    server = Server(0, "net", Feed(), {}.get)
    try:
        start = time.monotonic()
        with mock.patch("socketserver.TCPServer.get_request", short):
            try:
                server.get_request()
            except OSError:
                pass
        assert time.monotonic() - start > .05
    finally:
        server.server_close()
