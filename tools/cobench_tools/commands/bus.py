"""Reads, writes, configures and watches the devices on a bus."""
import argparse
import importlib
import signal
from types import ModuleType

from .. import interrupts

# The actions, in the order of a day's work. Each is the module of that name in bus/actions/.
ACTIONS = ("scan", "read", "write", "download", "verify", "upload", "nmt", "save", "restore", "lss", "watch")

SUMMARY = "read, write, configure and watch the devices on a bus"

AFTER = """Goes on a CAN bus by the adapters that python-can has (SocketCAN, PCAN, Kvaser, SLCAN
and others); --interface, --channel and --bitrate are python-can's, and what they
don't say comes from CAN_INTERFACE and CAN_CHANNEL or from its configuration file.

{actions}

Nothing is sent but what an action says. `cobtool bus ACTION --help` has the words of
each, with an example. Status: 0 where all is well, 1 where a device isn't as it
should be, refuses or doesn't answer, 2 where the action can't do its work, 130
where Ctrl-C ended it.

  cobtool bus scan --interface socketcan --channel can0 network.txt"""


def module_of(action: str) -> ModuleType:
    """The module of an action."""
    return importlib.import_module(f"..bus.actions.{action.replace('-', '_')}", __package__)


def arguments(parser: argparse.ArgumentParser) -> None:
    width = max(map(len, ACTIONS))
    lines = [f"  {action:{width}}  {module_of(action).SUMMARY}" for action in ACTIONS]
    parser.epilog = AFTER.format(actions="\n".join(lines))
    parts = parser.add_subparsers(dest="action", metavar="ACTION", required=True,
                                  help="what to do: " + ", ".join(ACTIONS))
    for action in ACTIONS:
        module = module_of(action)
        part = parts.add_parser(action, description=module.SUMMARY)
        part.epilog = module.AFTER
        module.arguments(part)


def stop(*_: object) -> None:
    """A signal that asks to end does what Ctrl-C does: what is done so far is told."""
    raise KeyboardInterrupt


def run(options: argparse.Namespace) -> int:
    before = {each: signal.getsignal(each) for each in interrupts.SIGNALS}
    for each, handler in before.items():
        if handler not in (signal.SIG_IGN, None):
            signal.signal(each, stop)
    try:
        return module_of(options.action).run(options)
    finally:
        for each, handler in before.items():
            if handler is not None:
                signal.signal(each, handler)
