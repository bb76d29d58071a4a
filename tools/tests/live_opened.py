"""The program `cobtool live` over the script of a scene, and a page of it in a browser. Skipped without Chromium."""
import contextlib
import re
import subprocess
import sys

from browser import Browser
from helper import COBTOOL, put
from live_scene import Scene, words


class Opened:
    """A program `cobtool live` over the script of a scene, and a page of it in a browser."""

    def __init__(self, browser, scene=None, program=None, asked=(), **more):
        self.scene, self.browser = scene or Scene(), browser
        program = " ".join(program or words())
        live = [sys.executable, COBTOOL, "live", "--port", "0", "--cobench", program, *asked, self.scene.script]
        self.program = subprocess.Popen(live, stdout=subprocess.PIPE)
        self.address = re.match(rb"(http://127.0.0.1:[0-9]+/\S*) ", self.program.stdout.readline()).group(1).decode()
        self.page = self.another(**more)

    def another(self, wide=1280, high=800, **more):
        """A page, once it shows the first look."""
        page = self.browser.page(wide, high, **more)
        page.open(self.address)
        page.wait("live.items.get('ledger') && live.items.get('status').state === 'well'")
        page.settle()
        return page

    def save(self, old, new):
        """Saves the script with a change, and waits until the page has what comes of it."""
        saves = self.page.value("live.items.get('ledger').length")
        text = self.scene.text()
        assert old in text, old
        put(self.scene.script, text.replace(old, new))
        self.page.wait(f"live.items.get('ledger').length > {saves} && live.items.get('status').state === 'well'")
        self.page.settle()

    def fail(self, data, words):
        """Saves the script with what it can't be, and waits until the page says so in these words."""
        put(self.scene.script, data)
        status = "document.getElementById('status')"
        self.page.wait(f"{status}.className === 'fault' && {status}.textContent.includes({words!r})")
        self.page.settle()

    def close(self):
        self.program.terminate()
        self.program.communicate(timeout=60)


@contextlib.contextmanager
def opened(**more):
    """The program and its page; whatever goes wrong in the page fails the test."""
    with Browser() as browser:
        live = Opened(browser, **more)
        try:
            yield live
            assert not live.page.faults(), live.page.faults()
        finally:
            live.close()


def text(page, selector):
    return page.value(f"document.querySelector('{selector}').innerText")


def texts(page, selector):
    """The texts of all that a selector finds."""
    return page.value(f"[...document.querySelectorAll({selector!r})].map(each => each.innerText)")
