"""Says what isn't as planned while the machine runs."""
import argparse
import os
import secrets
import threading
import time
from typing import Optional

from ... import acceptance, findings, judgement, session, tool, within
from ...conform import choice, options as judging, tolerance as tolerances
from ...conform.report import ConformReport
from .. import connection
from ..watch import Accepts, BusLog, Watch
from ..last_frames import LastFrames
from ..watch_page import PageServer, content_of

SUMMARY = "say what isn't as planned while the machine runs"

AFTER = """Listens to the bus, and reports what isn't as SCRIPT plans it when it comes, by the
rules and in the words of `cobtool conform`, and each change of a node's state.
Nothing is sent. What stays away is reported once it is late. Ctrl-C ends it, or
--seconds: then the report of `conform` follows, each cause with how often it was
there.

A number behind the name stands for the line in --log FILE, or counts the messages.
--page serves the timeline, each lane above the planned one, at 127.0.0.1 alone, to who
has the address that is printed; the browser asks for it again every few seconds, and
the last 50,000 frames are drawn.

Status: 0 without errors, 1 with some or where no frame came, 2 where SCRIPT can't be
read or the bus can't be used.

  cobtool bus watch --interface socketcan --channel can0 --log machine.log network.txt"""

PORT = 8307
UNHEARD = 5.0       # seconds after which the nodes of which nothing came are told


def arguments(parser: argparse.ArgumentParser) -> None:
    parser.add_argument("script", metavar="SCRIPT", help="the script, with comments and files")
    parser.add_argument("--trace", metavar="N", type=int, default=0,
                        help="the plan is the network at the Nth `trace` of SCRIPT; its end without it")
    parser.add_argument("--seconds", metavar="S", type=float, help="end after so many seconds")
    parser.add_argument("--page", metavar="PORT", nargs="?", type=int, const=PORT,
                        help=f"serve the timeline, at port {PORT} without PORT")
    judging.add_arguments(parser)
    acceptance.add_arguments(parser)
    session.add_arguments(parser)
    within.add_argument(parser)
    connection.add_arguments(parser)


def acceptor(options: argparse.Namespace) -> Accepts:
    """What says whether a finding is accepted."""
    rules = acceptance.rules_of(options)
    return lambda finding: any(rule.accepts(finding) for rule in rules)


def server_of(options: argparse.Namespace, watch: Watch, accepts: Accepts) -> Optional[PageServer]:
    """The server of the page, None without --page."""
    if options.page is None:
        return None
    if not 0 <= options.page <= 65535:
        raise tool.Fault(f"a port is 0 to 65535, not {options.page}")
    title = f"{watch.log.path} and {os.path.basename(tool.name_of(options.script))}"
    try:
        server = PageServer(options.page, lambda: content_of(watch, accepts, title), secrets.token_urlsafe(16))
    except OSError as error:
        raise tool.Fault(f"port {options.page}: {error.strerror}; --page takes another") from None
    threading.Thread(target=server.serve, daemon=True).start()
    tool.put(f"{server.address} has the timeline\n")
    return server


def watch_bus(watch: Watch, bus: connection.Connection, options: argparse.Namespace, accepts: Accepts) -> None:
    """Tells what comes, until Ctrl-C or for so many seconds."""
    end = None if options.seconds is None else watch.began + options.seconds
    is_told = False
    try:
        while end is None or time.monotonic() < end:
            lines = watch.step(bus, accepts)
            if not is_told and time.monotonic() > watch.began + UNHEARD:
                is_told = True
                lines += [f"not heard in {UNHEARD:g} s: {', '.join(watch.unheard())}"] if watch.unheard() else []
            if lines:
                tool.put("".join(f"{line}\n" for line in lines))
    except KeyboardInterrupt:
        tool.put("\n")


def report_of(watch: Watch, options: argparse.Namespace) -> Optional[ConformReport]:
    """The report on all of it, None where there was nothing."""
    watch.take(watch.log.rest())
    if watch.judge.begin is None:
        return None
    own = judgement.of(watch.plan.answered)
    report = watch.finish(options.load)
    acceptance.judge(own + report.findings, options, acceptance.PLAN | acceptance.LOG)
    report.own_errors = sum(each.severity == findings.ERROR for each in own if not each.accepted)
    return report.judged()


def run(options: argparse.Namespace) -> int:
    judging.check(options)
    plan = choice.plan_at(argparse.Namespace(script=options.script, cobench=options.cobench, trace=options.trace), 0)[0]
    accepts = acceptor(options)
    with connection.opened(options, plan.project.bitrate, is_silent=True) as bus:
        log, tolerance = BusLog(options.log or bus.name), tolerances.Tolerance(options.jitter, options.clock)
        drawn = LastFrames(plan, tolerance) if options.page is not None else None
        watch = Watch(plan, tolerance, log, options.window or None, options.values, drawn)
        server = server_of(options, watch, accepts)
        tool.put(f"{bus.name} is watched; Ctrl-C ends it\n")
        try:
            watch_bus(watch, bus, options, accepts)
        finally:
            if server:
                server.close()
    report = report_of(watch, options)
    tool.put(report.as_text() if report else "no frame came\n")
    return report.status if report else tool.FOUND
