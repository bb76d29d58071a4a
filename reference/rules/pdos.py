"""The PDOs of a device, and when a TPDO is sent: docs/rules/pdos.md. What becomes of a received frame is in devices."""
from .pdo_objects import is_synchronous
from .values import UNSIGNED8, UNSIGNED16, UNSIGNED32
from .write_check import COMMUNICATION_OBJECTS, EXTENDED, IDENTIFIER, OFF, TPDO_OBJECTS, is_restricted

def pdos_of(device):
    """The PDOs that a device has, by their communication objects, in order."""
    has_type = device.shape.has_type
    return {index: Pdo(device, index) for index in sorted(device.shape.indices & COMMUNICATION_OBJECTS)
            if has_type(index, 1, UNSIGNED32) and has_type(index + 0x200, 0, UNSIGNED8)}

class Pdo:
    """A PDO of a device. index: of its communication object; its mapping object lies 200h above."""
    def __init__(self, device, index):
        self.device, self.index, self.sends = device, index, index in TPDO_OBJECTS
        self.forget()

    def forget(self):
        """What a TPDO last queued, its moments, the SYNCs that counted, whether it has started; what an RPDO keeps."""
        self.last = self.inhibit = self.event = self.kept = None
        self.counted, self.has_started = 0, False

    def learn(self):
        """At power-on, at a reset, and when one of its objects is written: whether it works, and by what."""
        self.forget()
        number_at, index, mapping = self.device.number_at, self.index, self.index + 0x200
        cob_id, count = number_at(index, 1, UNSIGNED32), number_at(mapping, 0, UNSIGNED8)
        self.is_on = self.works(cob_id, count)
        self.identifier, self.type = cob_id & IDENTIFIER, number_at(index, 2, UNSIGNED8)
        self.inhibit_time = 100 * (number_at(index, 3, UNSIGNED16) or 0)
        self.event_time = 1000 * (number_at(index, 5, UNSIGNED16) or 0)
        self.start = number_at(index, 6, UNSIGNED8)
        self.mapping = [number_at(mapping, sub, UNSIGNED32) for sub in range(1, count + 1)]

    def works(self, cob_id, count):
        return (not cob_id & (OFF | EXTENDED) and not is_restricted(cob_id & IDENTIFIER) and count != 0
                and self.device.mapping_check(self.index + 0x200, count) is None)

    def turn(self, sync, now):
        """Of a TPDO, with the SYNC of this instant or None: the bytes that are queued, or None."""
        if self.inhibit is not None and self.inhibit <= now:
            self.inhibit = None
        data = self.device.payload_of(self.mapping)
        if not self.is_sent(data, sync, now):
            return None
        self.last = data
        if self.type in (254, 255):
            self.inhibit = now + self.inhibit_time if self.inhibit_time else None
            self.event = now + max(self.event_time, self.inhibit_time) if self.event_time else None
        return data

    def is_sent(self, data, sync, now):
        if self.type == 0:
            return sync is not None and data != self.last
        if is_synchronous(self.type):
            return sync is not None and self.is_each_nth(sync)
        has_come = self.event is not None and self.event <= now
        return self.type in (254, 255) and self.inhibit is None and (data != self.last or has_come)

    def is_each_nth(self, sync):
        """Of the SYNCs that count."""
        if not self.counts(sync):
            return False
        self.counted = (self.counted + 1) % self.type
        return self.counted == 0

    def counts(self, sync):
        """With a start value, on a device that counts SYNCs, the first that counts is the one with that counter."""
        if not self.start or not self.device.number_at(0x1019, 0, UNSIGNED8) or self.has_started:
            return True
        if sync.data != bytes([self.start]):
            return False
        self.has_started, self.counted = True, 0
        return True
