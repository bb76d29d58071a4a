#!/usr/bin/env python3
"""Times a trace after each of 100 edits of a late event, of the example's drives to ten seconds.

Takes the path of the built program, or of more: then it prints them one below the other. A first trace alone,
and one after each edit: an `event` at 9.9 s sets another target position each time, so that the windows
behind it are simulated anew and the others are taken as they are kept. Prints milliseconds of the processor,
and the bytes of the last trace. Run it from the top of the repository:

  bench/late.py crates/cobench/out/cobench
"""
import os
import resource
import subprocess
import sys
import tempfile

EDITS = 100
FIRSTS = 20


def network():
    """The script of the servo axes, to ten seconds and without queries."""
    text = subprocess.run([sys.executable, "tools/cobtool", "expand", "examples/servo_axes.txt"], stdout=subprocess.PIPE, check=True).stdout
    queries = (b"dcf", b"cdcf", b"diag", b"trace", b"project")
    return [line for line in text.splitlines() if line.split(b" ")[0] not in queries] + [b"horizon 10000000"]


def event(number):
    return b"event 50 9900000 set 10 2200 1 %d" % number


def seconds(program, lines):
    """The seconds of the processor, and what was printed."""
    with tempfile.TemporaryFile() as script:
        script.write(b"\n".join(lines) + b"\n")
        script.seek(0)
        before = resource.getrusage(resource.RUSAGE_CHILDREN)
        done = subprocess.run([program], stdin=script, stdout=subprocess.PIPE, check=True)
        after = resource.getrusage(resource.RUSAGE_CHILDREN)
    return after.ru_utime - before.ru_utime + after.ru_stime - before.ru_stime, done.stdout


def measure(program):
    before = network()
    bare = min(seconds(program, before + [event(0)])[0] for _ in range(FIRSTS))
    first = min(seconds(program, before + [event(0), b"trace"])[0] for _ in range(FIRSTS))
    edits = [line for number in range(EDITS) for line in (event(number), b"trace")]
    all_edits, printed = seconds(program, before + edits)
    last = printed[printed.rindex(b"lines "):]
    each = (all_edits - first) / (EDITS - 1)
    print("a first trace %.2f ms, one after an edit %.2f ms, %d bytes  %s"
          % (1000 * (first - bare), 1000 * each, len(last), program))


def main():
    if len(sys.argv) < 2:
        sys.exit(__doc__)
    for program in sys.argv[1:]:
        measure(os.path.abspath(program))


if __name__ == "__main__":
    main()
