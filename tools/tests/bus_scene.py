"""A bus with simulated devices in this process, and `cobtool bus` on it."""
import contextlib
import io
import os
import sys
import threading
import time

from helper import TOOLS, Skipped

from cobench_tools.main import main

DEBIAN = "/usr/lib/python3/dist-packages"
POLL, EACH = 0.002, 0.02


def python_can():
    """The module python-can, Debian's too where this Python is of the same version; else the test is skipped."""
    try:
        import can
        return can
    except ImportError:
        debian = os.path.realpath("/usr/bin/python3").rpartition("python")[2]
        if debian != "{}.{}".format(*sys.version_info) or DEBIAN in sys.path:
            raise Skipped("python3-can isn't installed for this Python") from None
    sys.path.append(DEBIAN)
    return python_can()


class Received:
    """A bus with devices; `frames` are those that were sent to them."""

    def requests(self, node):
        """The requests that were sent to a node."""
        return [data for identifier, data in self.frames if identifier == 0x600 + node]

    def commands(self):
        """The NMT commands that were sent."""
        return [data for identifier, data in self.frames if identifier == 0]


class Rack(threading.Thread, Received):
    """The devices on a bus of python-can, by the computer's clock."""

    def __init__(self, devices, channel, interface="virtual", also=()):
        super().__init__(daemon=True)
        self.can = python_can()
        self.devices, self.also, self.frames, self.is_over, self.due = devices, list(also), [], False, 0
        self.bus = self.can.Bus(interface=interface, channel=channel)

    def run(self):
        while not self.is_over:
            self.turn(POLL)
        while self.turn(0):
            pass

    def turn(self, seconds):
        """Takes a message, if one comes within so many seconds; whether one did."""
        message = self.bus.recv(seconds)
        self.others(time.monotonic())
        if message is not None:
            self.frames.append((message.arbitration_id, bytes(message.data)))
            for device in self.devices:
                self.put(device.take(message.arbitration_id, bytes(message.data)))
        for device in self.devices:
            self.put(device.heartbeat(time.monotonic_ns() // 1000))
        return message is not None

    def others(self, now):
        """Others send their frames again and again."""
        if now >= self.due:
            self.put(self.also)
            self.due = now + EACH

    def put(self, frames):
        for identifier, data in frames:
            self.send(identifier, data)

    def send(self, identifier, data):
        self.bus.send(self.can.Message(arbitration_id=identifier, data=data, is_extended_id=False))

    def close(self):
        self.is_over = True
        self.join()
        self.bus.shutdown()


class Output(io.TextIOWrapper):
    """A standard stream that is kept."""

    def __init__(self):
        super().__init__(io.BytesIO(), encoding="utf-8", errors="surrogateescape", write_through=True)

    def text(self):
        return self.buffer.getvalue().decode("utf-8", "replace")


def here(*words):
    """The status, output and faults of `cobtool` with these words, run in this process."""
    output, faults = Output(), Output()
    with contextlib.redirect_stdout(output), contextlib.redirect_stderr(faults):
        try:
            status = main([str(word) for word in words])
        except SystemExit as end:
            status = end.code or 0
    return status, output.text(), faults.text()


def on_bus(devices, action, *words, also=()):
    """What `cobtool bus ACTION` with these words does on a bus with these devices: status, output, faults, and the rack.

    also  frames that others send again and again
    """
    python_can()
    channel = f"bus {os.getpid()} {time.monotonic_ns()}"
    rack = Rack(devices, channel, also=also)
    rack.start()
    try:
        done = here("bus", action, "--interface", "virtual", "--channel", channel, *words)
    finally:
        rack.close()
    return (*done, rack)


def servo(number=1, **more):
    """A device of the data sheet of the example's drives."""
    from bus_device import Device
    with open(os.path.join(os.path.dirname(TOOLS), "examples", "servo_drive.eds"), "rb") as file:
        return Device(number, file.read().split(b"\n"), **more)
