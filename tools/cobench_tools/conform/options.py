"""The words that say how frames are judged, of a log or of a bus."""
from .. import tool

MOST_JITTER, MOST_CLOCK, MOST_WINDOW = 100_000, 20_000, 10_000_000
LIMITS = (("jitter", MOST_JITTER, "microseconds"), ("clock", MOST_CLOCK, "parts of a million"),
          ("window", MOST_WINDOW, "microseconds"), ("load", 100, "per cent"))


def add_arguments(parser):
    parser.add_argument("--jitter", metavar="US", type=int, help="how far each time may be off, in microseconds")
    parser.add_argument("--clock", metavar="PPM", type=int, help="how far clocks may be off, in parts of a million")
    parser.add_argument("--window", metavar="US", type=int,
                        help="the microseconds behind SYNC within which its PDOs have to come; 1007h of each node without it")
    parser.add_argument("--load", metavar="PERCENT", type=float, help="how full the bus may be in 100 ms")
    parser.add_argument("--values", action="store_true",
                        help="the values of PDOs have to be those of the planned run too, as long as it goes")


def check(options):
    """Whether the numbers are such that can be."""
    for name, most, unit in LIMITS:
        number = getattr(options, name)
        if number is not None and not 0 <= number <= most:
            raise tool.Fault(f"--{name} is 0 to {most:,} {unit}, not {number:,}")
