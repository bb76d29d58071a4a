"""SDO transfers, a device's server and the manager's client: docs/rules/sdo.md.

A frame has eight bytes, with zeros where it uses none. Each step from an open transfer gives the next one."""
import struct
from typing import NamedTuple, Optional, Tuple
from .write_check import LENGTH_DOES_NOT_MATCH, Place

TOGGLE_NOT_ALTERNATED, UNKNOWN_COMMAND, TIMED_OUT = 0x05030000, 0x05040001, 0x05040000
EXPEDITED_DOWNLOAD = {1: 0x2F, 2: 0x2B, 3: 0x27, 4: 0x23}       # the command byte, by the length of the value
EXPEDITED_UPLOAD = {1: 0x4F, 2: 0x4B, 3: 0x47, 4: 0x43}
DOWNLOADED_LENGTH = {command: length for length, command in EXPEDITED_DOWNLOAD.items()}
UPLOADED_LENGTH = {command: length for length, command in EXPEDITED_UPLOAD.items()}
SEGMENTED_DOWNLOAD, DOWNLOAD_CONFIRMED, UPLOAD_REQUEST, SEGMENTED_UPLOAD = 0x21, 0x60, 0x40, 0x41
SEGMENT_CONFIRMED, SEGMENT_REQUEST, ABORT, TOGGLE, LAST_SEGMENT = 0x20, 0x60, 0x80, 0x10, 0x1F
# The stages of a server's transfer, in segments. Those of a client's: asked are an expedited download, one in segments,
# a segment of it; an upload, a segment of it.
SERVING_DOWNLOAD, SERVING_UPLOAD = "serving download", "serving upload"
WRITING, ANNOUNCING, SENDING, READING, RECEIVING = "writing", "announcing", "sending", "reading", "receiving"

class Transfer(NamedTuple):
    place: Place
    stage: str
    pieces: Tuple[bytes, ...] = ()     # those that weren't sent yet
    size: int = 0                      # of the value that comes in segments
    data: bytes = b""                  # what came of it so far
    toggle: int = 0                    # of the next segment

class Step(NamedTuple):
    frame: Optional[bytes] = None      # to send
    transfer: Optional[Transfer] = None                # that is open then
    written: Optional[Tuple[Place, bytes]] = None      # at its end the entry that a server writes, with its data
    read: Optional[bytes] = None       # what a client read
    failure: Optional[int] = None      # the code with which a client failed

# -------------------------------------------------------------------- frames
def entry_frame(command, place, rest=b""):
    return struct.pack("<BHB4s", command, *place, rest)

def number_frame(command, place, number):
    return struct.pack("<BHBI", command, *place, number)

def command_frame(command, toggle, piece=b""):
    return struct.pack("<B7s", command + TOGGLE * toggle, piece)

def parts_of(frame):
    """Its command byte, and where it has them the entry that it names and the number or size that it tells."""
    command, index, sub, number = struct.unpack("<BHBI", frame)
    return command, (index, sub), number

def toggle_of(frame):
    return frame[0] >> 4 & 1

def is_last(frame):
    return bool(frame[0] & 1)

def pieces_of(data):
    """Seven bytes a piece; an empty value is one piece of none."""
    return tuple(data[k:k + 7] for k in range(0, len(data), 7)) or (b"",)

def next_segment(transfer):
    """The frame of the next piece, and the transfer behind it."""
    piece, rest = transfer.pieces[0], transfer.pieces[1:]
    frame = command_frame(2 * (7 - len(piece)) + (not rest), transfer.toggle, piece)
    return frame, transfer._replace(pieces=rest, toggle=1 - transfer.toggle)

def with_segment(transfer, frame, code_of_length):
    """The transfer behind a segment that came, and None; or None and the abort code."""
    data = transfer.data + frame[1:8 - (frame[0] >> 1 & 7)]
    if toggle_of(frame) != transfer.toggle:
        return None, TOGGLE_NOT_ALTERNATED
    if len(data) > transfer.size or is_last(frame) and len(data) < transfer.size:
        return None, code_of_length
    return transfer._replace(data=data, toggle=1 - transfer.toggle), None

# -------------------------------------------------------------------- server
def server_answer(transfer, request, dictionary):
    command, place, size = parts_of(request)
    stage = transfer and transfer.stage
    if command == ABORT:
        return Step()
    if command in DOWNLOADED_LENGTH:
        data = request[4:4 + DOWNLOADED_LENGTH[command]]
        return write_answer(place, data, dictionary, entry_frame(DOWNLOAD_CONFIRMED, place))
    if command == SEGMENTED_DOWNLOAD:
        return download_answer(place, size, dictionary)
    if command == UPLOAD_REQUEST:
        return upload_answer(place, dictionary)
    if command <= LAST_SEGMENT and stage == SERVING_DOWNLOAD:
        return download_segment_answer(transfer, request, dictionary)
    if command in (SEGMENT_REQUEST, SEGMENT_REQUEST + TOGGLE) and stage == SERVING_UPLOAD:
        return upload_segment_answer(transfer, request)
    return abort_answer(transfer.place if transfer else (0, 0), UNKNOWN_COMMAND)

def abort_answer(place, code):
    """Each abort drops the transfer."""
    return Step(number_frame(ABORT, place, code))

def write_answer(place, data, dictionary, confirmation):
    code = dictionary.write_check(*place, data)
    return abort_answer(place, code) if code else Step(confirmation, written=(place, data))

def download_answer(place, size, dictionary):
    code = dictionary.shape.access_check(*place) or dictionary.shape.length_check(*place, size)
    if code:
        return abort_answer(place, code)
    return Step(entry_frame(DOWNLOAD_CONFIRMED, place), Transfer(place, SERVING_DOWNLOAD, size=size))

def upload_answer(place, dictionary):
    code = dictionary.shape.read_check(*place)
    if code:
        return abort_answer(place, code)
    data = dictionary.values[place]
    if len(data) in EXPEDITED_UPLOAD:
        return Step(entry_frame(EXPEDITED_UPLOAD[len(data)], place, data))
    return Step(number_frame(SEGMENTED_UPLOAD, place, len(data)), Transfer(place, SERVING_UPLOAD, pieces_of(data)))

def download_segment_answer(transfer, request, dictionary):
    following, code = with_segment(transfer, request, LENGTH_DOES_NOT_MATCH)
    if code:
        return abort_answer(transfer.place, code)
    confirmation = command_frame(SEGMENT_CONFIRMED, transfer.toggle)
    if is_last(request):
        return write_answer(transfer.place, following.data, dictionary, confirmation)
    return Step(confirmation, following)

def upload_segment_answer(transfer, request):
    if toggle_of(request) != transfer.toggle:
        return abort_answer(transfer.place, TOGGLE_NOT_ALTERNATED)
    frame, following = next_segment(transfer)
    return Step(frame, following if following.pieces else None)

# -------------------------------------------------------------------- client
def download_start(place, data):
    if len(data) in EXPEDITED_DOWNLOAD:
        return Step(entry_frame(EXPEDITED_DOWNLOAD[len(data)], place, data), Transfer(place, WRITING))
    return Step(number_frame(SEGMENTED_DOWNLOAD, place, len(data)), Transfer(place, ANNOUNCING, pieces_of(data)))

def upload_start(place):
    return Step(entry_frame(UPLOAD_REQUEST, place), Transfer(place, READING))

def client_abort(transfer, code):
    return Step(number_frame(ABORT, transfer.place, code), failure=code)

def after_answer(transfer, answer):
    command, place, number = parts_of(answer)
    stage, names_entry = transfer.stage, place == transfer.place
    if command == ABORT:
        return Step(failure=number)
    if stage == WRITING and names_entry and command == DOWNLOAD_CONFIRMED:
        return Step()
    if stage == ANNOUNCING and names_entry and command == DOWNLOAD_CONFIRMED:
        return Step(*next_segment(transfer._replace(stage=SENDING)))
    if stage == SENDING and command in (SEGMENT_CONFIRMED, SEGMENT_CONFIRMED + TOGGLE):
        return after_segment_confirmed(transfer, answer)
    if stage == READING and names_entry and command in UPLOADED_LENGTH:
        return Step(read=answer[4:4 + UPLOADED_LENGTH[command]])
    if stage == READING and names_entry and command == SEGMENTED_UPLOAD:
        return Step(command_frame(SEGMENT_REQUEST, 0), transfer._replace(stage=RECEIVING, size=number))
    if stage == RECEIVING and command <= LAST_SEGMENT:
        return after_upload_segment(transfer, answer)
    return client_abort(transfer, UNKNOWN_COMMAND)

def after_segment_confirmed(transfer, answer):
    """What is confirmed is the segment before the next one."""
    if toggle_of(answer) == transfer.toggle:
        return client_abort(transfer, TOGGLE_NOT_ALTERNATED)
    return Step(*next_segment(transfer)) if transfer.pieces else Step()

def after_upload_segment(transfer, answer):
    following, code = with_segment(transfer, answer, UNKNOWN_COMMAND)
    if code:
        return client_abort(transfer, code)
    if is_last(answer):
        return Step(read=following.data)
    return Step(command_frame(SEGMENT_REQUEST, following.toggle), following)
