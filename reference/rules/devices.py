"""A simulated device at a moment: docs/rules/devices.md. Moments are microseconds from the power-on of the network."""
import struct
from . import sdo
from .frames import (EMERGENCY, ERROR_CONTROL, NMT, SDO_ANSWER, SDO_REQUEST, SYNC, Frame, WaitingFrames,
                     boot_up_message, is_error_control)
from .pdo_objects import is_synchronous
from .pdos import pdos_of
from .values import UNSIGNED8, UNSIGNED16, UNSIGNED32
from .write_check import IDENTIFIER, Dictionary, bytes_begun, pieces_of_payload

STOPPED, OPERATIONAL, PRE_OPERATIONAL = 4, 5, 127
START, STOP, ENTER_PRE_OPERATIONAL, RESET_NODE, RESET_COMMUNICATION = 1, 2, 128, 129, 130
STATES = {START: OPERATIONAL, STOP: STOPPED, ENTER_PRE_OPERATIONAL: PRE_OPERATIONAL}
PRODUCER_TIME = (0x1017, 0)
ERROR_BITS = 0x11                                      # generic and communication error
HEARTBEAT_FAILED, TOO_SHORT, NO_ERROR = 0x8130, 0x8210, 0x0000

class Device(Dictionary):
    """read(part, node) is called where the device reads a part of the image. Without power it does nothing."""
    def __init__(self, number, shape, defaults, read):
        super().__init__(shape, {})
        self.number, self.defaults, self.read = number, defaults, read
        self.waiting, self.pdos = WaitingFrames(), pdos_of(self)
        self.tpdos = [pdo for pdo in self.pdos.values() if pdo.sends]
        self.rpdos = [pdo for pdo in self.pdos.values() if not pdo.sends]
        self.has_power = False
        self.forget_all()

    # ------------------------------------------------------- power and reset
    def power(self, is_on, now):
        if is_on and not self.has_power:
            self.values = dict(self.defaults)
            self.initialise(now)
        if not is_on:
            self.forget_all()
        self.has_power = is_on

    def reset(self, is_of_node, now):
        self.values.update({place: data for place, data in self.defaults.items()
                            if is_of_node or 0x1000 <= place[0] <= 0x1FFF})
        self.initialise(now)

    def forget_all(self):
        self.waiting.frames.clear()
        self.transfer = self.heartbeat = self.sync = None                                  # sync: that of this instant
        self.consumers = {sub: None for index, sub in sorted(self.shape.entries)           # when they fail
                          if index == 0x1016 and sub >= 1 and self.shape.has_type(index, sub, UNSIGNED32)}
        self.failed = set()                            # of the consumers
        for pdo in self.pdos.values():
            pdo.forget()

    def initialise(self, now):
        self.read("Defaults", self.number)
        self.read("Shape", self.number)
        self.forget_all()
        self.state = PRE_OPERATIONAL
        self.waiting.add(("boot-up",), boot_up_message(self.number))
        self.start_heartbeat(now)
        for pdo in self.pdos.values():
            pdo.learn()

    def start_heartbeat(self, now):
        time = self.number_at(*PRODUCER_TIME, UNSIGNED16)
        self.heartbeat = now + 1000 * time if time else None

    # ---------------------------------------------------------------- writes
    def write(self, place, data, now):
        """By an event, SDO or an RPDO, with what it brings about; whatever the access and the limits."""
        index, sub = place
        self.values[place] = data
        if place == PRODUCER_TIME and self.shape.has_type(*place, UNSIGNED16):
            self.start_heartbeat(now)
        if index == 0x1016 and sub in self.consumers:
            self.consumers[sub] = None
            if self.failed == {sub}:
                self.set_error_bits(False)
            self.failed.discard(sub)
        pdo = self.pdos.get(index) or self.pdos.get(index - 0x200)
        if pdo is not None:
            pdo.learn()

    def set_error_bits(self, are_set):
        register = self.number_at(0x1001, 0, UNSIGNED8)
        if register is not None:
            self.values[0x1001, 0] = bytes([register | ERROR_BITS if are_set else register & ~ERROR_BITS])

    def send_emergency(self, code):
        if self.state != STOPPED:
            register = self.number_at(0x1001, 0, UNSIGNED8) or 0
            self.waiting.add(("emergency",), Frame(EMERGENCY + self.number, struct.pack("<HB5x", code, register)))

    # ------------------------------------------------------------ NMT states
    def enter(self, state):
        if self.state == OPERATIONAL != state:
            self.waiting.drop("tpdo")
            for pdo in self.pdos.values():
                pdo.forget()
        if state == STOPPED != self.state:
            self.waiting.drop("sdo", "emergency")
            self.transfer = None
        self.state = state

    def serve_nmt(self, service, now):
        if service in STATES:
            self.enter(STATES[service])
        elif service in (RESET_NODE, RESET_COMMUNICATION):
            self.reset(service == RESET_NODE, now)

    # ------------------------------------------------------- received frames
    def take(self, frame, now):
        """A frame of another node, by the first that fits."""
        if frame.id == NMT:
            if len(frame.data) == 2 and frame.data[1] in (0, self.number):
                self.serve_nmt(frame.data[0], now)
        elif frame.id == self.sync_identifier():
            if self.state == OPERATIONAL:
                self.take_sync(frame, now)
        elif frame.id == SDO_REQUEST + self.number and len(frame.data) == 8:
            if self.state != STOPPED:
                self.serve_sdo(frame.data, now)
        elif is_error_control(frame):
            self.renew_consumers(frame.id - ERROR_CONTROL, now)
        elif self.state == OPERATIONAL:
            for pdo in self.rpdos:
                if pdo.is_on and pdo.identifier == frame.id:
                    self.take_pdo(pdo, frame, now)

    def sync_identifier(self):
        cob_id = self.number_at(0x1005, 0, UNSIGNED32)
        return SYNC if cob_id is None else cob_id & IDENTIFIER

    def take_sync(self, frame, now):
        """The frames that RPDOs keep are applied; the TPDOs of this SYNC have their turns later in this instant."""
        for pdo in self.rpdos:
            if pdo.kept is not None:
                data, pdo.kept = pdo.kept, None
                self.apply(pdo, data, now)
        self.sync = frame

    def serve_sdo(self, request, now):
        self.read("Shape", self.number)
        step = sdo.server_answer(self.transfer, request, self)
        self.transfer = step.transfer
        if step.written is not None:
            self.write(*step.written, now)
        if step.frame is not None:
            self.waiting.add(("sdo", self.number), Frame(SDO_ANSWER + self.number, step.frame))

    def take_pdo(self, pdo, frame, now):
        if len(frame.data) < bytes_begun(pdo.mapping):
            self.send_emergency(TOO_SHORT)
        elif is_synchronous(pdo.type):
            pdo.kept = frame.data                      # until the next SYNC
        elif pdo.type in (254, 255):
            self.apply(pdo, frame.data, now)

    def apply(self, pdo, data, now):
        self.read("Shape", self.number)
        for place, piece in pieces_of_payload(pdo.mapping, data):
            if self.takes(place, piece):
                self.write(place, piece, now)

    def renew_consumers(self, producer, now):
        """And end their failures. None watches the device itself: the controller has the number of the manager."""
        had_failed = len(self.failed) > 0
        for sub in self.consumers:
            value = self.number_at(0x1016, sub, UNSIGNED32)
            node, time = value >> 16 & 0xFF, value & 0xFFFF
            if node == producer != self.number and time:
                self.consumers[sub] = now + 1000 * time
                self.failed.discard(sub)
        if had_failed and not self.failed:
            self.set_error_bits(False)
            self.send_emergency(NO_ERROR)

    # ------------------------------------------------------ timers and TPDOs
    def run_timers(self, now):
        """The consumers by sub-index, then the heartbeat."""
        for sub, moment in self.consumers.items():
            if moment == now:
                self.consumers[sub] = None
                self.failed.add(sub)
                self.set_error_bits(True)
                self.send_emergency(HEARTBEAT_FAILED)
                if self.state == OPERATIONAL:
                    self.enter(PRE_OPERATIONAL)
        if self.heartbeat == now:
            self.start_heartbeat(now)
            self.waiting.replace(("heartbeat",), Frame(ERROR_CONTROL + self.number, bytes([self.state])))

    def send_tpdos(self, now):
        sync, self.sync = self.sync, None
        for pdo in self.tpdos:
            data = pdo.turn(sync, now) if self.state == OPERATIONAL and pdo.is_on else None
            if data is not None:
                self.waiting.replace(("tpdo", pdo.index), Frame(pdo.identifier, data))

    def moments(self, now):
        """The due moments, some of which are None or past."""
        return [self.heartbeat, *self.consumers.values(),
                *(moment for pdo in self.tpdos for moment in (pdo.inhibit, pdo.event))]
