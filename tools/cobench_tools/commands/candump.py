"""Turns a trace into a log as `candump -L` of can-utils writes it, or as other programs do."""
from .. import tool, trace, view
from ..logs import writers

SUMMARY = "print the frames of a trace as a log of candump, or of other programs"

AFTER = f"""Instead of SCRIPT a TRACE may stand, the replies of a session with `trace` in it, or
the lines of a trace alone; without both the standard input is read. Each frame becomes
one line with its time in seconds; the manager's notes, which no bus carries, and what
a recording has besides the frames of the network are left out. Power-on is at second 1, since log2asc and others take second 0 for a log
that has not begun; --start gives another. canplayer, log2asc, Wireshark and
python3-can read the log. Status: 0, 1 where SCRIPT has errors, or 2 where there is no
trace or it is cut; nothing is printed then.

{view.HELP}

--format gives Vector's ASC (asc), PEAK's TRC 1.1 (trc), whose times have a tenth of
a millisecond, or 2.1 (trc21), and the CSV of python-can (csv). In ASC and TRC
power-on is at time 0, and --start gives the date at their heads.

  cobtool candump network.txt > boot.log
  tshark -r boot.log -d can.subdissector,canopen"""


def arguments(parser):
    parser.epilog = AFTER
    parser.add_argument("replies", metavar="SCRIPT", nargs="?", default="-",
                        help="the script; or TRACE: the replies of a session, or the lines of a trace; the standard input without it")
    parser.add_argument("--start", metavar="SECOND", type=int, default=trace.LOG_START,
                        help="the second of power-on, as 1700000000 for a day of 2023")
    parser.add_argument("--format", choices=writers.FORMATS, default="log", help="log without it")
    view.add_arguments(parser)


def run(options):
    if not 0 <= options.start < 10_000_000_000:
        raise tool.Fault("--start is 0 to 9,999,999,999")
    shown = view.of(None, options.replies, options)
    tool.put(writers.log_of(trace.frames_of(shown.lines), options.format, options.start))
    return shown.status
