"""The bits of frames on the wire as the plain program counts them, by sigrok's decoder of CAN where sigrok-cli is installed."""
import os
import random
import re
import shutil
import subprocess
import sys

from helper import ROOT, Skipped

sys.path.append(os.path.join(ROOT, "reference"))
from rules import frames  # noqa: E402

FRAMES = 1000
SAMPLES = 10        # of each bit
IDLE = [1] * 50
# The delimiter of the check, the acknowledgement with its delimiter, the end of frame and the intermission.
BEHIND = [1, 0, 1] + [1] * 10


def some_frames(seed):
    """Frames of any identifier but 7F0h and above, of which sigrok warns, with bytes that often make long rows."""
    chance = random.Random(seed)
    return [frames.Frame(chance.randrange(0x7F0), bytes(chance.choice((0x00, 0xFF, chance.randrange(256)))
                                                         for _ in range(chance.randrange(9)))) for _ in range(FRAMES)]


def on_the_wire(bits):
    """Bits with their stuff bits: behind five equal ones one of the other value, the first of the next row."""
    sent, row = [], 0
    for bit in bits:
        row = row + 1 if sent and bit == sent[-1] else 1
        sent.append(bit)
        if row == 5:
            sent.append(1 - bit)
            row = 1
    return sent


def decoded(levels, folder):
    """What sigrok's decoder of CAN writes of levels, at 500 kbit/s."""
    path = os.path.join(folder, "levels.bin")
    with open(path, "wb") as out:
        out.write(bytes(level for level in levels for _ in range(SAMPLES)))
    return subprocess.run(["sigrok-cli", "-I", f"binary:numchannels=1:samplerate={500_000 * SAMPLES}", "-i", path, "-P",
                           "can:can_rx=0:nominal_bitrate=500000", "-A", "can"], check=True, stdout=subprocess.PIPE).stdout.decode()


def test_sigrok_reads_the_bits_of_frames_with_their_checks():
    if not shutil.which("sigrok-cli"):
        raise Skipped("sigrok-cli isn't installed")
    levels, wanted = list(IDLE), []
    for frame in some_frames(1):
        bits = frames.with_crc(frames.bits_before_crc(frame))
        slot = on_the_wire(bits) + BEHIND
        assert len(slot) == frames.exact_bits(frame), frame
        levels += slot
        wanted.append((frame.id, len(frame.data), frame.data, int("".join(map(str, bits[-15:])), 2)))
    text = decoded(levels + IDLE, os.getcwd())
    lines = re.findall(r"can-1: (Identifier|Data length code|Data byte \d|CRC-15 sequence): (\S+)", text)
    found: list[list] = []
    for name, number in lines:
        if name == "Identifier":
            found.append([int(number), 0, b"", 0])
        elif name == "Data length code":
            found[-1][1] = int(number)
        elif name.startswith("Data byte"):
            found[-1][2] += bytes([int(number, 16)])
        else:
            found[-1][3] = int(number, 16)
    assert list(map(tuple, found)) == wanted
    assert not re.search("(?i)error|warning|must|violat", text)
