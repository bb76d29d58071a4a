"""SDO block transfers (CiA 301), for devices that do them: long values in blocks of up to 127 segments."""
import binascii
from typing import Any, List, Optional, Tuple

from .sdo_client import SEGMENT, SdoClient
from .transfer import BLOCK_SIZE, COMMAND, CRC, SEQUENCE, Aborted, Key, named

MOST_SEGMENTS = 127
LAST = 0x80
MOST_REPEATS = 16
NOT_DONE = (COMMAND, 0x06010000)     # with these a device refuses block transfers


def read(client: SdoClient, key: Key, size: Optional[int] = None) -> bytes:
    """The bytes of an entry, by blocks where the device does them."""
    client.begin(key)
    try:
        answer = client.ask(b"\xA4" + named(key) + bytes([MOST_SEGMENTS, 0, 0, 0]))
    except Aborted as why:
        if why.number not in NOT_DONE:
            raise
        return client.read(key, size)
    client.check_entry(answer, 0xC0, key)
    data = received(client, with_sum=bool(answer[0] & 0x04))
    client.check_length(data, int.from_bytes(answer[4:8], "little") if answer[0] & 0x02 else None, True)
    client.put(b"\xA1" + bytes(7))
    client.key = None
    return data


def received(client: SdoClient, with_sum: bool) -> bytes:
    """The bytes that a device sends in blocks."""
    client.put(b"\xA3" + bytes(7))
    data, is_last, repeats = b"", False, 0
    while not is_last:
        parts, is_last = block_of(client)
        data, repeats = data + b"".join(parts), repeats + (not parts)
        client.check_length(data, None, False)
        if repeats > MOST_REPEATS:
            raise client.abort(SEQUENCE, "its segments don't come in their order")
        client.put(bytes([0xA2, len(parts), MOST_SEGMENTS]) + bytes(5))
        client.step(SEGMENT * len(parts))
    end = client.answer()
    client.check_command(end, 0xE3, 0xC1, "the end of a block transfer")
    data = data[:len(data) - (end[0] >> 2 & 7)]
    if with_sum and binascii.crc_hqx(data, 0) != int.from_bytes(end[1:3], "little"):
        raise client.abort(CRC, "the check sum isn't that of the bytes")
    return data


def block_of(client: SdoClient) -> Tuple[List[bytes], bool]:
    """The segments of a block that come in their order, and whether the last one of all is among them."""
    parts: List[bytes] = []
    number = 0
    while number < MOST_SEGMENTS:
        answer = client.answer()
        number = answer[0] & ~LAST
        if number == len(parts) + 1:
            parts.append(answer[1:8])
            if answer[0] & LAST:
                return parts, True
        elif answer[0] & LAST:
            return parts, False
    return parts, False


def write(client: SdoClient, key: Key, data: bytes) -> Any:
    """Writes the bytes of an entry by blocks where the device does them."""
    client.begin(key)
    try:
        answer = client.ask(b"\xC6" + named(key) + len(data).to_bytes(4, "little"))
    except Aborted as why:
        if why.number not in NOT_DONE:
            raise
        return client.write(key, data)
    client.check_entry(answer, 0xA0, key)
    send(client, data, answer[4])
    unused = -len(data) % SEGMENT if data else SEGMENT
    total = binascii.crc_hqx(data, 0) if answer[0] & 0x04 else 0
    end = client.ask(bytes([0xC1 | unused << 2]) + total.to_bytes(2, "little") + bytes(5))
    client.check_command(end, 0xE3, 0xA1, "the end of a block transfer")
    client.key = None
    return None


def send(client: SdoClient, data: bytes, count: int) -> None:
    """Sends bytes in blocks of so many segments; what the device didn't get in its order is sent again."""
    parts = [data[place:place + SEGMENT] for place in range(0, max(len(data), 1), SEGMENT)]
    place = repeats = 0
    while place < len(parts):
        if not 1 <= count <= MOST_SEGMENTS:
            raise client.abort(BLOCK_SIZE, f"it wants blocks of {count} segments")
        block = parts[place:place + count]
        for number, part in enumerate(block, 1):
            is_last = place + number == len(parts)
            client.put(bytes([number | LAST * is_last]) + part.ljust(SEGMENT, b"\0"))
        answer = client.answer()
        client.check_command(answer, 0xE3, 0xA2, "the answer to a block")
        taken, count = answer[1], answer[2]
        repeats = 0 if taken else repeats + 1
        if taken > len(block) or repeats > MOST_REPEATS:
            raise client.abort(SEQUENCE, f"it has taken {taken} of {len(block)} segments")
        client.step(sum(map(len, parts[place:place + taken])))
        place += taken
