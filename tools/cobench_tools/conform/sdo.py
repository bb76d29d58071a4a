"""Follows SDO transfers between the manager and a node: what is written and read, and how it ends."""
from .. import meaning
from . import keys

WRITE, READ = "write", "read"


class Transfer:
    """A transfer: its direction, entry, the bytes so far, and the time and line of its request.

    is_whole  whether the bytes are known to be all that were sent
    segments  where the bytes of each segment end, and its line
    """

    def __init__(self, kind, key, time, line):
        self.kind, self.key, self.time, self.line = kind, key, time, line
        self.data, self.is_whole, self.is_block, self.segments = b"", True, False, []

    def line_of(self, place):
        """The line that has the byte at a place."""
        return next((line for end, line in self.segments if place < end), self.segments[-1][1] if self.segments else self.line)


def expedited(data):
    """The bytes of an expedited value, all four where their number isn't told."""
    return data[4:8 - (data[0] >> 2 & 3)] if data[0] & 1 else data[4:]


def segment(data):
    """The bytes of a segment, and whether it is the last one."""
    return data[1:8 - (data[0] >> 1 & 7)], bool(data[0] & 1)


class Talk:
    """The transfers of the default SDO channel of a node; `boot` is told of what they write and read."""

    def __init__(self, boot, node):
        self.boot, self.node, self.open, self.is_last = boot, node, None, False
        self.is_left = False
        self.time, self.said, self.key = 0, "", keys.answer(node.number)

    def forget(self):
        """The open transfer is over without an answer."""
        self.open, self.said = None, ""

    def request(self, time, digits, line):
        """The manager said something."""
        data = bytes.fromhex(digits)
        if len(data) != 8:
            return
        self.time, command = time, data[0] >> 5
        if self.open and self.open.is_block and not (command == 6 and data[0] & 1):
            self.open.is_block = command != 4
            return
        if command in (1, 2):
            self._begin(command, data, time, line)
        elif command == 0 and self.open:
            piece, self.is_last = segment(data)
            self.open.data += piece
            self.open.segments.append((len(self.open.data), line))
        elif command == 4 and self.open:
            self._abort(data, "the manager", time, line)
        elif command == 6 and not data[0] & 1:
            self._begin(command, data, time, line)
            self.open.is_whole = False

    def _begin(self, command, data, time, line):
        """A new transfer; one that is open has no answer."""
        if self.open:
            self._unanswered()
        key = int.from_bytes(data[1:3], "little"), data[3]
        self.open, self.is_last = Transfer(READ if command == 2 else WRITE, key, time, line), False
        if command == 1 and data[0] & 2:
            self.open.data, self.is_last = expedited(data), True

    def _unanswered(self):
        transfer, self.open = self.open, None
        if self.node.first is not None:
            self.node.tell("sdo-unanswered", [self.node.number, *names(transfer.key)],
                           f"the {transfer.kind} of {self._entry(transfer)} has no answer", transfer.time, transfer.line)
        if transfer.kind == WRITE:
            self.boot.wrote(transfer)

    def _entry(self, transfer):
        return self.node.judge.plan.entry(self.node.number, transfer.key)

    def answer(self, time, digits, line):
        """The node said something."""
        self.node.hear(time, line)
        data = bytes.fromhex(digits)
        if len(data) != 8 or self._is_doubled(digits, time, line) or not self.open:
            return
        command = data[0] >> 5
        if command == 4:
            self._abort(data, "the node", time, line)
        elif command == 5:
            self._block(data, time, line)
        elif self.open.kind == WRITE:
            if command == 3 and self.is_last or command == 1 and self.is_last:
                self._done(time, line)
        else:
            self._read(command, data, time, line)

    def _is_doubled(self, digits, time, line):
        """Whether it said that before, and is asked something else by now or nothing at all."""
        if self.open and self.open.is_block:
            return False
        said, command, asked = self.said, int(digits[0], 16) >> 1, self.open.key if self.open else None
        if command in (2, 3, 4) and said[:8] == digits[:8] and asked != self.key_of(digits):
            self.node.is_doubled("it answers twice", time, line)
            return True
        self.said = digits if command in (2, 3, 4) else ""
        return False

    @staticmethod
    def key_of(digits):
        """The entry of which an answer is."""
        return int(digits[4:6] + digits[2:4], 16), int(digits[6:8], 16)

    def finish(self, end):
        """The log is over: a request that has had no answer for so long won't have any."""
        if self.open and end - self.time > self.node.judge.plan.answer_time and self.node.judge.bus.waits_since(
                self.key, self.time) > self.time:
            self._unanswered()
            self.is_left = True

    def _block(self, data, time, line):
        """An answer of a block transfer: it goes on until its end is confirmed."""
        if data[0] & 3 == 1:
            self._done(time, line)
        else:
            self.open.is_block = True

    def _read(self, command, data, time, line):
        if command == 2 and data[0] & 2:
            self.open.data = expedited(data)
            self._done(time, line)
        elif command == 0:
            piece, is_last = segment(data)
            self.open.data += piece
            if is_last:
                self._done(time, line)

    def _done(self, time, line):
        """The transfer is over, and was confirmed."""
        transfer, self.open = self.open, None
        if transfer.kind == WRITE:
            self.boot.wrote(transfer)
            self.boot.confirmed(transfer, time, line)
        else:
            self.boot.was_read(transfer, line)

    def _abort(self, data, who, time, line):
        """The transfer was aborted."""
        transfer, self.open = self.open, None
        code = int.from_bytes(data[4:], "little")
        what = meaning.ABORTS.get(code, "")
        number = self.node.judge.plan.real(self.node.number, transfer.key, transfer.data)
        value = f" {number or transfer.data.hex(' ').upper()}" if transfer.kind == WRITE and transfer.data else ""
        text = f"{who} aborts the {transfer.kind} of {self._entry(transfer)}{value}: {code:08X} {what}".rstrip()
        self.node.tell("sdo-abort", [self.node.number, *names(transfer.key), f"{code:08X}"], text, time, line,
                       [(transfer.line, "the request")])
        if transfer.kind == WRITE:
            self.boot.wrote(transfer)


def names(key):
    """An entry as words of a finding."""
    return f"{key[0]:04X}", f"{key[1]:02X}"
