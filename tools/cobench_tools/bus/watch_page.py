"""The timeline of what is watched, over HTTP on this machine alone: drawn anew each time that it is asked for."""
import http.server
from typing import Any, Callable

from .. import bundle
from ..conform.overlay import Overlay
from ..conform.plan import Plan
from ..live.server import ADDRESS, Handler, Server, hosts_of, policy
from ..logs.intake import Block
from .watch import Accepts, Watch

REFRESH = 3             # seconds after which the browser asks again


class PageHandler(Handler):
    """Has the browser ask for the page again."""

    server: "PageServer"

    def answer_path(self, path: str) -> None:
        if path != "/":
            self.put(404, "there is no such page")
            return
        self.put(200, self.server.page(), "text/html; charset=utf-8", Refresh=str(REFRESH),
                 **{"Content-Security-Policy": self.server.policy})


class PageServer(Server):
    """Serves the one page that `content` gives, None where there is nothing yet."""

    def __init__(self, port: int, content: Callable[[], Any], word: str = "") -> None:
        http.server.ThreadingHTTPServer.__init__(self, (ADDRESS, port), PageHandler)
        self.content, self.word, self.hosts = content, word, hosts_of(self.server_port)
        self.policy = policy(bundle.timeline_page({}))

    def page(self) -> str:
        content = self.content()
        return bundle.timeline_page(content) if content else NOTHING

    def close(self) -> None:
        self.shutdown()
        self.server_close()


NOTHING = "<!DOCTYPE html><title>cobench trace</title><p>No frame has come yet.</p>"


def content_of(watch: Watch, accepts: Accepts, title: str) -> Any:
    """What the page shows: each recorded lane above the planned one, and what isn't as planned as flags."""
    drawn, judge = watch.drawn, watch.judge
    if drawn is None:
        return None
    with drawn.lock:
        if not drawn.windows:
            return None
        offset = judge.causes.alignment.offset
        findings = [(cause, watch.report.finding(cause)) for cause in list(judge.causes.found.values())]
        flags = [(cause, finding.text) for cause, finding in findings if not accepts(finding)]
        return Overlay(drawn, judge, offset if offset is not None else judge.begin, flags).content(title)
