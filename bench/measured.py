#!/usr/bin/env python3
"""One session of a program, with the seconds of the processor and the greatest memory that it took.

A process begins with the memory of the one that starts it, and its greatest memory counts that. So the program is
started by a small process of its own, and not by the one that holds the script and the replies: by GNU time (Debian's
package time), which takes 2 MB, or, where that isn't there, by this file run as a script, which takes 12, so that of a
program that takes less the memory isn't told.
"""
import collections
import os
import subprocess
import sys
import tempfile

# Seconds of the processor, the greatest memory in bytes, and all that was written.
Session = collections.namedtuple("Session", "seconds memory written")
TIME = "/usr/bin/time"


def session(program, lines, *arguments):
    """Runs a program over these pieces of bytes as its input. Ends this script where it fails."""
    with tempfile.TemporaryFile() as file, tempfile.TemporaryFile() as output:
        file.writelines(lines)
        file.seek(0)
        command = [sys.executable, "-I", "-S", os.path.abspath(__file__), program, *arguments]
        told = subprocess.run(command, stdin=file, stdout=output, stderr=subprocess.PIPE).stderr
        output.seek(0)
        written = output.read()
    *before, status, seconds, kilobytes = told.split() or [b""] * 3
    if status != b"0":
        sys.exit(f"{program} ended with status {status.decode()} {b' '.join(before).decode(errors='replace')}")
    return Session(float(seconds), int(kilobytes) * 1024, written)


def used(command):
    """The status of a program, and what it used."""
    _, status, usage = os.wait4(os.posix_spawn(command[0], command, os.environ), 0)
    return status >> 8 if not status & 0x7F else -(status & 0x7F), usage


def tell(command):
    """Runs a program, and tells its status, its seconds and its kilobytes on the standard error."""
    if not os.path.exists(TIME):
        status, usage = used(command)
        kilobytes = usage.ru_maxrss
    else:
        with tempfile.NamedTemporaryFile("r") as report:
            status, usage = used([TIME, "-q", "-f", "%M", "-o", report.name, *command])
            kilobytes = report.read().strip()
    sys.stderr.write(f" {status} {usage.ru_utime + usage.ru_stime} {kilobytes}")


if __name__ == "__main__":
    tell(sys.argv[1:])
