"""Recordings of machines that aren't as planned, made by the simulation: a copy of the script is run that differs from the plan."""
import re

from cobench_tools import session, trace
from cobench_tools.evidence import Evidence
from helper import put

EVENT = 9_999


def frames_of(script, program):
    """The frames of the run of a script."""
    put("machine.txt", script)
    return trace.frames_of(trace.trace_of(session.run("machine.txt", program, Evidence.QUERIES).lines("trace")))


def without_power(script, node):
    """The script of a machine in which a node has no power from the beginning on."""
    lines = [line for line in script.split(b"\n") if not re.match(rb"event \d+ \d+ power %d " % node, line)]
    return b"\n".join(lines) + b"event %d 0 power %d off\n" % (EVENT, node)


def without_message(script, name):
    """The script of a machine that hasn't a message of the plan."""
    return b"\n".join(line for line in script.split(b"\n") if not re.match(rb"(message|source|sink|start) %s\b" % name, line))


def doubled(frames, node, tpdos, shift):
    """The frames, and those that a node sends once more a while later, as a second device of its number sends them."""
    own = {0x700 + node, 0x580 + node} | tpdos
    twin = [[time + shift, identifier, data] for time, identifier, data in frames if identifier in own and time + shift <= frames[-1][0]]
    return sorted([list(each) for each in frames] + twin, key=lambda frame: frame[0])


def booting_later(script, delays):
    """The script of a machine whose nodes have power so many microseconds after the others: {node: delay}."""
    events = []
    for number, (node, delay) in enumerate(sorted(delays.items())):
        off, on = EVENT - 2 * number, EVENT - 2 * number - 1
        events += [b"event %d 0 power %d off\n" % (off, node), b"event %d %d power %d on\n" % (on, delay, node)]
    return script + b"".join(events)
