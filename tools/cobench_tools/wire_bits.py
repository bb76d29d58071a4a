"""The bits of a frame on the wire with its stuff bits (docs/rules/frames.md; ISO 11898-1).

Behind five equal bits, stuff bits among them, one of the other value is put in, and it is the first of the next row; that goes
from the start of the frame to the end of its check. What a byte does to the check and to the rows is worked out once.
"""
import functools

FRAME_BITS = 47
HEADER, CHECK, POLYNOMIAL, ROW = 19, 15, 0x4599, 5


def plain_bits(size):
    """The bits of a frame of so many bytes without stuff bits, with the room behind it."""
    return FRAME_BITS + 8 * size


def checked(register, bit):
    """The check behind one more bit."""
    shifted = register << 1 & 0x7FFF
    return shifted ^ POLYNOMIAL if bit ^ register >> 14 else shifted


def stuffed(row, bit):
    """The row behind one more bit, as its value and its length, and how many stuff bits that puts in."""
    value, length = row
    length = length + 1 if bit == value else 1
    return ((1 - bit, 1), 1) if length == ROW else ((bit, length), 0)


def bits_of(number, count):
    """The bits of a number, the highest first."""
    return [number >> place & 1 for place in range(count - 1, -1, -1)]


def along(row, bits):
    """The row behind some bits, and how many stuff bits these bring."""
    count = 0
    for bit in bits:
        row, more = stuffed(row, bit)
        count += more
    return row, count


# Rows are numbered: one of zeros or of ones, and how many of them, 1 to 4; and that before the first bit.
ROWS = [(value, length) for value in (0, 1) for length in range(1, ROW)] + [(1, 0)]
BEFORE = len(ROWS) - 1


@functools.lru_cache(maxsize=None)
def tables():
    """What a byte does: to the check, and to each row, which becomes another with so many stuff bits; and so for the last seven bits."""
    checks = [behind(0, bits_of(byte, 8)) for byte in range(256)]
    rows, ends = ([[numbered(along(row, bits_of(byte, count))) for byte in range(1 << count)] for row in ROWS] for count in (8, CHECK - 8))
    return checks, rows, ends


def behind(register, bits):
    """The check behind some bits."""
    for bit in bits:
        register = checked(register, bit)
    return register


def numbered(found):
    """A row by its number, with the count of stuff bits."""
    row, count = found
    return ROWS.index(row), count


@functools.lru_cache(maxsize=1 << 15)
def behind_header(identifier, size):
    """The check, the row and the count of stuff bits behind the bits before the bytes of a frame."""
    bits = bits_of(identifier << 7 | size, HEADER)
    return (behind(0, bits), *numbered(along(ROWS[BEFORE], bits)))


@functools.lru_cache(maxsize=1 << 16)
def exact_bits(identifier, data):
    """The bits of a frame of 11 bits of identifier with its stuff bits, and with the room behind it."""
    checks, rows, ends = tables()
    register, row, count = behind_header(identifier, len(data))
    for byte in data:
        register = register << 8 & 0x7FFF ^ checks[register >> 7 ^ byte]
        row, more = rows[row][byte]
        count += more
    row, more = rows[row][register >> 7]
    return plain_bits(len(data)) + count + more + ends[row][register & 0x7F][1]
