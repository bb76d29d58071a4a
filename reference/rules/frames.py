"""Frames, how long one takes the bus, the frames that wait, and which of them starts: docs/rules/frames.md.

In version 3 the stuff bits of ISO 11898-1 are counted too: along SOF, identifier, RTR, IDE, r0, DLC, data and CRC."""
import struct
from typing import NamedTuple

NMT, SYNC, EMERGENCY, TIME = 0x000, 0x080, 0x080, 0x100
SDO_ANSWER, SDO_REQUEST, ERROR_CONTROL = 0x580, 0x600, 0x700
DAY_MS = 86_400_000

class Frame(NamedTuple):
    id: int
    data: bytes

def boot_up_message(node):
    return Frame(ERROR_CONTROL + node, b"\x00")

def is_error_control(frame):
    return ERROR_CONTROL < frame.id <= ERROR_CONTROL + 127 and len(frame.data) == 1

def is_boot_up(frame):
    return is_error_control(frame) and frame.data == b"\x00"

def nmt_message(service, node):
    return Frame(NMT, bytes([service, node]))

def time_message(now, first_day):
    """The milliseconds after midnight, and the days since 1984-01-01; the run begins at midnight."""
    days, milliseconds = divmod(now // 1000, DAY_MS)
    return Frame(TIME, struct.pack("<IH", milliseconds, (first_day + days) % 2**16))

# --------------------------------------------------------------------- slots
def slot_bits(frame):
    """Without stuff bits, as versions 1 and 2 count."""
    return 47 + 8 * len(frame.data)

def exact_bits(frame):
    """With stuff bits, as version 3 counts."""
    return slot_bits(frame) + stuff_bits(with_crc(bits_before_crc(frame)))

def slot_time(frame, bit_rate, version):
    """In microseconds; the bit rate is in kbit/s."""
    return (exact_bits(frame) if version >= 3 else slot_bits(frame)) * 1000 // bit_rate

def bits_of(number, count):
    """The highest first."""
    return [number >> place & 1 for place in range(count - 1, -1, -1)]

def bits_before_crc(frame):
    data = [bit for byte in frame.data for bit in bits_of(byte, 8)]
    return [0] + bits_of(frame.id, 11) + [0, 0, 0] + bits_of(len(frame.data), 4) + data

def with_crc(bits):
    register = 0
    for bit in bits:
        is_inverted = bit ^ register >> 14
        register = register << 1 & 0x7FFF ^ 0x4599 * is_inverted
    return bits + bits_of(register, 15)

def stuff_bits(bits):
    """Behind five equal bits one of the other value is put in, the first of the next row: how many these are."""
    count, value, row = 0, None, 0
    for bit in bits:
        row = row + 1 if bit == value else 1
        value = bit
        if row == 5:
            count, value, row = count + 1, 1 - bit, 1
    return count

def frame_line(time, frame):
    return b"%010d %03X [%d]" % (time, frame.id, len(frame.data)) + b"".join(b" %02X" % byte for byte in frame.data)

# ------------------------------------------------------------ waiting frames
class WaitingFrames:
    """The frames that wait at one node, in order, each behind its purpose: a word, and the object or node if any."""
    def __init__(self):
        self.frames = []

    def add(self, purpose, frame):
        self.frames.append((purpose, frame))

    def replace(self, purpose, frame):
        """In the place of the first frame of its purpose; where none waits, it goes last."""
        purposes = [other for other, _ in self.frames]
        place = purposes.index(purpose) if purpose in purposes else len(purposes)
        self.frames[place:place + 1] = [(purpose, frame)]

    def drop(self, *purposes):
        """Those of these purposes; a word alone is every purpose with it."""
        self.frames = [(purpose, frame) for purpose, frame in self.frames
                       if purpose not in purposes and purpose[0] not in purposes]

def winner(lists):
    """The sender, a number and whether it is the manager's, and the place in its list of the frame that starts: the
    least by identifier, then by sender, then by place. None where no frame waits."""
    least = min(((frame.id, sender, place) for sender, waiting in lists.items()
                 for place, (_, frame) in enumerate(waiting.frames)), default=None)
    return None if least is None else least[1:]
