"""The bus as python-can opens it: frames out and in, each of them into the log."""
import argparse
import collections
import contextlib
import logging
import os
import time
from typing import Any, Callable, Deque, Dict, List, Optional, Tuple

from .. import tool
from ..trace import Frame
from .frame_log import FrameLog, channel_word, text_of

MISSING = ("python-can isn't there for this Python: on Debian `apt-get install python3-can` brings it for "
           "/usr/bin/python3, elsewhere `pip install python-can`")
OLD = "python-can is of version {version} here, and 4.0 or later is needed"
UNNAMED = ("no adapter is named: by --interface and --channel, by CAN_INTERFACE and CAN_CHANNEL, or in python-can's "
           "configuration file")

FULL = 1.0              # seconds for which a frame may wait for the adapter
PAUSE = 0.001           # seconds between two tries
PACE = 0.002            # seconds between two frames that wait for no answer, so that no adapter is flooded, nor the bus
MOST_WAITING = 1_000    # frames that are taken at once
SAME_CLOCK = 2.0        # seconds by which the adapter's clock may differ and still be the computer's
LEAST_RATE, LEAST_VERSION = 5_000, 4
FILLED = 80             # per cent of a bus that are all of it, since stuff bits aren't counted
CONFIRMED = 0.05        # seconds for which what was sent last may be on its way to the bus
ECHOING = ("udp_multicast",)            # interfaces that give back what was sent as a frame of others
CONFIRMING = ("socketcan", "virtual")   # those that give it back, as what was sent, once it was on the bus


def python_can() -> Any:
    """The module python-can."""
    try:
        import can
    except ImportError:
        raise tool.Fault(MISSING) from None
    if int(can.__version__.split(".")[0]) < LEAST_VERSION:
        raise tool.Fault(OLD.format(version=can.__version__))
    if not os.environ.get("COBTOOL_DEBUG"):
        logging.getLogger("can").setLevel(logging.CRITICAL)
    return can


def add_arguments(parser: argparse.ArgumentParser) -> None:
    """The words that choose the adapter, and what every action has."""
    parser.add_argument("--interface", metavar="NAME",
                        help="python-can's name of the adapter's kind, as socketcan, pcan or kvaser")
    parser.add_argument("--channel", metavar="NAME", help="which adapter of that kind, as can0 or PCAN_USBBUS1")
    parser.add_argument("--bitrate", metavar="BITS", type=int,
                        help="bits a second, as 250000; without it that of SCRIPT")
    parser.add_argument("--log", metavar="FILE", help="write each frame into FILE, as candump -L does")


def configured(can: Any, options: argparse.Namespace, planned: Optional[int]) -> Dict[str, Any]:
    """What python-can is to open, with the bit rate of the script where nothing else says one."""
    if options.bitrate is not None and options.bitrate < LEAST_RATE:
        raise tool.Fault(f"--bitrate is in bits a second, as 250000, not {options.bitrate}")
    given = {name: getattr(options, name) for name in ("interface", "channel", "bitrate")}
    given = {name: word for name, word in given.items() if word is not None}
    try:
        config = can.util.load_config(config=given)
    except can.CanInterfaceNotImplementedError:
        raise tool.Fault(unknown(can, given["interface"]) if "interface" in given else UNNAMED) from None
    if planned:
        check_rate(config, planned, options)
    return config


def unknown(can: Any, interface: str) -> str:
    """What is told of an interface that python-can doesn't have."""
    return f"python-can has no interface {interface}; it has {', '.join(sorted(can.VALID_INTERFACES))}"


def check_rate(config: Dict[str, Any], planned: int, options: argparse.Namespace) -> None:
    """Gives the configuration the planned bit rate, or says that it has another one."""
    rate = config.setdefault("bitrate", planned)
    if rate != planned and not getattr(options, "force", False):
        raise tool.Fault(f"the script has {planned:,} bits a second, and the adapter is to have {rate:,}: on a running "
                         "bus a wrong bit rate disturbs every frame")


def opened(options: argparse.Namespace, planned: Optional[int] = None, is_silent: bool = False) -> "Connection":
    """The connection that the words of a command want; `planned` is the script's bit rate in kbit/s."""
    can = python_can()
    config = configured(can, options, 1000 * planned if planned else None)
    is_confirmed = config.get("interface") in CONFIRMING
    if is_confirmed:
        config["receive_own_messages"] = True
    try:
        bus = can.Bus(**config)
    except (can.CanError, OSError, ValueError, TypeError, ImportError, AttributeError) as error:
        name = f"{config.get('interface')} {config.get('channel') or ''}".rstrip()
        raise tool.Fault(f"{name}: {error}".replace("\n", " ")) from None
    try:
        log = FrameLog(options.log, config.get("channel")) if options.log else None
    except tool.Fault:
        bus.shutdown()
        raise
    connection = Connection(can, bus, log, is_silent)
    connection.is_confirmed = is_confirmed
    connection.has_echo, connection.name = config.get("interface") in ECHOING, channel_word(config.get("channel"))
    connection.bitrate = config.get("bitrate")
    return connection


class Connection:
    """An open bus, to be used in a `with`.

    clock      what tells the time by which the bus is heard
    log        what each frame is written into, None for nothing
    observers  what takes each frame that others send
    is_silent  whether nothing may be sent
    aside      how many frames came that CANopen doesn't have
    name       that of the channel, in one word
    bitrate    bits a second, None where nothing says it
    has_echo   whether each frame that was sent comes back as one of another
    is_confirmed  whether each comes back once it was on the bus; the log has it then. So many are still to come: `unconfirmed`
    """

    clock: Any = time
    bitrate: Optional[int] = None
    has_echo, is_confirmed, name = False, False, "can0"

    def __init__(self, can: Any, bus: Any, log: Optional[FrameLog] = None, is_silent: bool = False) -> None:
        self.can, self.bus, self.log, self.is_silent = can, bus, log, is_silent
        self.offset: Optional[float] = None
        self.aside = self.unconfirmed = 0
        self.observers: List[Callable[[Frame], None]] = []
        self.echoes: Deque[Tuple[int, bytes]] = collections.deque(maxlen=MOST_WAITING)

    def __enter__(self) -> "Connection":
        return self

    def __exit__(self, *_: object) -> None:
        until = self.clock.monotonic() + CONFIRMED
        with contextlib.suppress(tool.Fault):
            while self.unconfirmed and self.message(until):
                pass
        self.bus.shutdown()
        if self.log:
            self.log.close()

    def send(self, identifier: int, data: bytes) -> None:
        """Sends a frame, waiting a while for an adapter that is full."""
        if self.is_silent:
            raise tool.Fault("nothing is sent here")
        message = self.can.Message(arbitration_id=identifier, data=data, is_extended_id=False)
        until = self.clock.monotonic() + FULL
        if self.has_echo:
            self.echoes.append((identifier, bytes(data)))
        while not self._is_sent(message, until):
            self.clock.sleep(PAUSE)
        self.unconfirmed += self.is_confirmed
        if self.log and not self.is_confirmed:
            self.log.put(int(self.clock.time() * 1e6), text_of(message))

    def _is_sent(self, message: Any, until: float) -> bool:
        """Whether the adapter takes a message; by a time of the monotonic clock it has to."""
        try:
            self.bus.send(message, timeout=FULL)
            return True
        except (self.can.CanError, OSError) as error:
            if self.clock.monotonic() > until:
                raise tool.Fault(f"the adapter takes no frame: {error}") from None
            return False

    def receive(self, until: float) -> Optional[Frame]:
        """The next frame of the others, or None where there is none by a time of the monotonic clock."""
        message, late = self.message(until), 0
        while message is not None:
            frame = self._frame(message)
            if frame:
                for observer in self.observers:
                    observer(frame)
                return frame
            late += self.clock.monotonic() > until      # error frames may come faster than they are taken
            message = self.message(until) if late < MOST_WAITING else None
        return None

    def message(self, until: float) -> Any:
        """The next message of the others, whatever it is, or None; its timestamp is one of the computer's clock."""
        while True:
            left = until - self.clock.monotonic()
            message = self._received(max(left, 0))
            if message is None and left <= 0:
                return None
            if message is not None and not self._is_own(message):
                self._take(message)
                return message

    def _received(self, seconds: float) -> Any:
        try:
            return self.bus.recv(seconds)
        except (self.can.CanError, OSError) as error:
            raise tool.Fault(f"the adapter: {error}") from None

    def _take(self, message: Any) -> None:
        """Gives a message its time, and has the log take it."""
        if self.offset is None:
            offset = round(self.clock.time() - message.timestamp, 6)
            self.offset = 0 if abs(offset) < SAME_CLOCK else offset
        message.timestamp += self.offset
        if self.log:
            self.log.put(round(message.timestamp * 1e6), text_of(message))

    def _frame(self, message: Any) -> Optional[Frame]:
        """The frame of a message, None for one that CANopen doesn't have."""
        if message.is_error_frame or message.is_extended_id or message.is_remote_frame or message.is_fd:
            self.aside += 1
            return None
        return Frame(round(message.timestamp * 1e6), message.arbitration_id, bytes(message.data))

    def _is_own(self, message: Any) -> bool:
        """Whether a message was sent here and comes back."""
        if message.is_error_frame or message.is_rx:
            return not message.is_error_frame and self._is_echo(message)
        if self.unconfirmed:
            self.unconfirmed -= 1
            self._take(message)
        return True

    def _is_echo(self, message: Any) -> bool:
        """Whether a message is the next one of those that were sent and come back; some may be lost."""
        frame = message.arbitration_id, bytes(message.data)
        if frame not in self.echoes:
            return False
        while self.echoes.popleft() != frame:
            pass
        return True

    def filled(self, bits: int, seconds: float) -> Optional[int]:
        """The per cent of the bus that so many bits of frames filled in a time, None where they left it room."""
        share = 100 * bits / (self.bitrate * seconds) if self.bitrate else 0
        return round(share) if share >= FILLED else None

    def waiting(self) -> List[Frame]:
        """The frames of the others that have come already."""
        now = self.clock.monotonic()
        found: List[Frame] = []
        while len(found) < MOST_WAITING:
            frame = self.receive(now)
            if frame is None:
                break
            found.append(frame)
        return found

    def listen(self, seconds: float) -> List[Frame]:
        """Takes what comes in a time; the frames."""
        until, found = self.clock.monotonic() + seconds, []
        frame = self.receive(until)
        while frame:
            found.append(frame)
            frame = self.receive(until)
        return found
