"""A browser for tests: headless Chromium, driven by its remote protocol over a WebSocket of our own.

    with Browser() as browser:
        page = browser.page(1280, 800)
        page.open("file:///..")
        page.value("document.title")
"""
import base64
import json
import os
import shutil
import socket
import struct
import subprocess
import tempfile
import time

from helper import Skipped

PROGRAMS = ("chromium", "chromium-browser", "google-chrome", "chrome")
LONGEST = 20.0      # seconds until a page has to do what is asked for


class WebSocket:
    """A client's end of a WebSocket (RFC 6455): texts there and back."""

    def __init__(self, host, port, path):
        self.socket = socket.create_connection((host, port), timeout=LONGEST)
        key = base64.b64encode(os.urandom(16)).decode()
        self.socket.sendall((f"GET {path} HTTP/1.1\r\nHost: {host}:{port}\r\nUpgrade: websocket\r\n"
                             f"Connection: Upgrade\r\nSec-WebSocket-Key: {key}\r\nSec-WebSocket-Version: 13\r\n\r\n").encode())
        self.stream = self.socket.makefile("rb")
        status = self.stream.readline()
        assert b" 101 " in status, status
        while self.stream.readline().strip():
            pass

    def send(self, text):
        data, mask = text.encode(), os.urandom(4)
        size = len(data)
        if size < 126:
            head = struct.pack(">BB", 0x81, 0x80 | size)
        elif size < 1 << 16:
            head = struct.pack(">BBH", 0x81, 0xFE, size)
        else:
            head = struct.pack(">BBQ", 0x81, 0xFF, size)
        self.socket.sendall(head + mask + masked(data, mask))

    def receive(self):
        """The next text, whole."""
        parts = []
        while True:
            first, second = self._read(2)
            size = second & 0x7F
            if size > 125:
                size = int.from_bytes(self._read(2 if size == 126 else 8), "big")
            data = self._read(size)
            if first & 0x0F in (0, 1):
                parts.append(data)
                if first & 0x80:
                    return b"".join(parts).decode()
            elif first & 0x0F == 8:
                raise ConnectionError("the browser closed the connection")

    def _read(self, size):
        data = self.stream.read(size)
        if len(data) < size:
            raise ConnectionError("the browser went away")
        return data

    def close(self):
        self.stream.close()
        self.socket.close()


def masked(data, mask):
    """Bytes under the mask that a client has to put over them."""
    size = len(data)
    number = int.from_bytes(data, "little") ^ int.from_bytes((mask * (size // 4 + 1))[:size], "little")
    return number.to_bytes(size, "little")


class Browser:
    """A browser of its own, with a profile that goes away with it."""

    def __init__(self):
        found = next(filter(None, map(shutil.which, PROGRAMS)), None)
        if not found:
            raise Skipped("no Chromium is installed")
        self.folder = tempfile.mkdtemp(prefix="cobtool-browser-")
        words = [found, "--headless", "--no-sandbox", "--disable-gpu", "--disable-dev-shm-usage", "--no-first-run",
                 "--disable-extensions", "--disable-background-networking", "--hide-scrollbars=false",
                 "--force-color-profile=srgb", "--remote-debugging-port=0", f"--user-data-dir={self.folder}"]
        self.process = subprocess.Popen(words, stdin=subprocess.DEVNULL, stdout=subprocess.DEVNULL,
                                        stderr=open(os.path.join(self.folder, "log"), "wb"))
        self.number = 0
        self.events = []
        self.pipe = WebSocket(*self._address())

    def __enter__(self):
        return self

    def __exit__(self, *_):
        self.close()

    def _address(self):
        """Host, port and path by which the browser wants to be asked: it writes them down when it is ready."""
        until = time.monotonic() + LONGEST
        path = os.path.join(self.folder, "DevToolsActivePort")
        while time.monotonic() < until and self.process.poll() is None:
            if os.path.exists(path):
                with open(path) as file:
                    lines = file.read().split("\n")
                if len(lines) == 2 and lines[1]:
                    return "127.0.0.1", int(lines[0]), lines[1]
            time.sleep(.02)
        self.close()
        raise Skipped("Chromium doesn't start here")

    def ask(self, method, session=None, **parameters):
        """The result of a command of the protocol."""
        self.number += 1
        asked = {"id": self.number, "method": method, "params": parameters}
        if session:
            asked["sessionId"] = session
        self.pipe.send(json.dumps(asked))
        while True:
            answer = json.loads(self.pipe.receive())
            if answer.get("id") == self.number:
                assert "error" not in answer, f"{method}: {answer['error']}"
                return answer["result"]
            self.events.append(answer)

    def page(self, wide=1280, high=800, touch=False, dark=False):
        """A new page of a size in pixels."""
        target = self.ask("Target.createTarget", url="about:blank")["targetId"]
        session = self.ask("Target.attachToTarget", targetId=target, flatten=True)["sessionId"]
        return Page(self, session, wide, high, touch, dark)

    def close(self):
        if getattr(self, "pipe", None):
            self.pipe.close()
        if self.process.poll() is None:
            self.process.terminate()
            try:
                self.process.wait(5)
            except subprocess.TimeoutExpired:
                self.process.kill()
                self.process.wait()
        shutil.rmtree(self.folder, ignore_errors=True)


class Page:
    """A page of a browser: it is opened, asked, pointed at, touched and photographed."""

    def __init__(self, browser, session, wide, high, touch, dark):
        self.browser, self.session, self.touch = browser, session, touch
        for domain in ("Page", "Runtime", "Log"):
            self.ask(f"{domain}.enable")
        self.ask("Emulation.setTouchEmulationEnabled", enabled=touch, maxTouchPoints=2 if touch else 1)
        self.ask("Emulation.setEmulatedMedia", features=[{"name": "prefers-color-scheme", "value": "dark" if dark else "light"}])
        self.resize(wide, high)

    def ask(self, method, **parameters):
        return self.browser.ask(method, self.session, **parameters)

    def resize(self, wide, high):
        self.ask("Emulation.setDeviceMetricsOverride", width=wide, height=high, deviceScaleFactor=1, mobile=self.touch)

    def open(self, address):
        """Opens an address; it is there whole, and drawn once, when this returns."""
        self.ask("Page.navigate", url=address)
        self.wait("document.readyState === 'complete'")
        self.settle()

    def open_file(self, path):
        self.open("file://" + os.path.abspath(path))

    def value(self, expression):
        """The value of an expression of the page."""
        done = self.ask("Runtime.evaluate", expression=expression, returnByValue=True, awaitPromise=True)
        assert "exceptionDetails" not in done, f"{expression}: {done['exceptionDetails']}"
        return done["result"].get("value")

    def settle(self):
        """Waits until what was asked for is drawn."""
        self.value("new Promise(done => requestAnimationFrame(() => requestAnimationFrame(() => done(1))))")

    def wait(self, expression, longest=LONGEST):
        """Waits until an expression of the page is true, and gives its value."""
        until = time.monotonic() + longest
        while time.monotonic() < until:
            found = self.value(expression)
            if found:
                return found
            time.sleep(.01)
        raise AssertionError(f"never true: {expression}")

    def faults(self):
        """What went wrong in the page so far: exceptions and errors of its log."""
        mine = [each for each in self.browser.events if each.get("sessionId") == self.session]
        found = [json.dumps(each["params"]["exceptionDetails"]) for each in mine if each["method"] == "Runtime.exceptionThrown"]
        return found + [each["params"]["entry"]["text"] for each in mine
                        if each["method"] == "Log.entryAdded" and each["params"]["entry"]["level"] == "error"]

    def picture(self, path=None):
        """The page as PNG."""
        data = base64.b64decode(self.ask("Page.captureScreenshot", format="png")["data"])
        if path:
            with open(path, "wb") as file:
                file.write(data)
        return data

    def pdf(self):
        """The page as it is printed, by its own size of paper."""
        return base64.b64decode(self.ask("Page.printToPDF", preferCSSPageSize=True, printBackground=True)["data"])

    # Mouse, keys and fingers.

    def mouse(self, kind, x, y, **more):
        self.ask("Input.dispatchMouseEvent", type=kind, x=x, y=y, **more)

    def point(self, x, y):
        self.mouse("mouseMoved", x, y)
        self.settle()

    def click(self, x, y):
        self.mouse("mousePressed", x, y, button="left", clickCount=1)
        self.mouse("mouseReleased", x, y, button="left", clickCount=1)
        self.settle()

    def drag(self, x, y, to_x, to_y, steps=4):
        self.mouse("mousePressed", x, y, button="left", buttons=1, clickCount=1)
        for n in range(1, steps + 1):
            self.mouse("mouseMoved", x + (to_x - x) * n / steps, y + (to_y - y) * n / steps, button="left", buttons=1)
        self.mouse("mouseReleased", to_x, to_y, button="left", clickCount=1)
        self.settle()

    def wheel(self, x, y, down, aside=0, keys=0):
        """Turns the wheel; `keys` are 2 for Ctrl, 8 for Shift."""
        self.mouse("mouseWheel", x, y, deltaX=aside, deltaY=down, modifiers=keys)
        self.settle()

    def key(self, name, code=0):
        text = name if len(name) == 1 else "\r" if name == "Enter" else ""
        self.ask("Input.dispatchKeyEvent", type="keyDown", key=name, text=text, windowsVirtualKeyCode=code)
        self.ask("Input.dispatchKeyEvent", type="keyUp", key=name, windowsVirtualKeyCode=code)
        self.settle()

    def type(self, text):
        self.ask("Input.insertText", text=text)
        self.settle()

    def fingers(self, *paths, steps=5):
        """Moves a finger along each path, from its first point to its last, all at once; one point is a tap."""
        def at(share):
            return [{"x": path[0][0] + (path[-1][0] - path[0][0]) * share, "y": path[0][1] + (path[-1][1] - path[0][1]) * share,
                     "id": number} for number, path in enumerate(paths)]

        self.ask("Input.dispatchTouchEvent", type="touchStart", touchPoints=at(0))
        if any(len(path) > 1 for path in paths):
            for n in range(1, steps + 1):
                self.ask("Input.dispatchTouchEvent", type="touchMove", touchPoints=at(n / steps))
        self.ask("Input.dispatchTouchEvent", type="touchEnd", touchPoints=[])
        self.settle()
