"""From which moment on the traces of two networks differ, in words."""
from . import meaning, safe_text, trace
from .findings import milliseconds


def equal_front(old, new):
    """How many lines are equal from the first one on."""
    return next((place for place, (one, two) in enumerate(zip(old, new)) if one != two), min(len(old), len(new)))


def equal_end(old, new, front):
    """How many lines are equal at the end, behind the front."""
    most = min(len(old), len(new)) - front
    return next((count for count in range(most) if old[-1 - count] != new[-1 - count]), most)


def told(side, lines, place):
    """A line of a trace in the words of its project, or that the trace has ended."""
    if place == len(lines):
        return "the trace ends"
    network = meaning.Network(side.project, True)
    read = trace.trace_of(lines[:place + 1])
    said = [network.of(line) for line in read][-1]
    identifier = "" if isinstance(read[-1], trace.Note) else f"{read[-1].identifier:03X} "
    return safe_text.readable(f"{milliseconds(read[-1].time)}: {identifier}{said.text}")


def time_of(line):
    """The microsecond of a line of a trace."""
    return int(line.split(b" ", 1)[0])


def counted(number):
    return f"{number:,} line{'' if number == 1 else 's'}"


def lines_of(old, new):
    """Where the traces part, what each has there, and from when on they are the same again."""
    one, two = old.answered.lines("trace"), new.answered.lines("trace")
    if one == two:
        return []
    front = equal_front(one, two)
    end = equal_end(one, two, front)
    since = f"the same up to {milliseconds(time_of(one[front - 1]))}, {counted(front)}" if front else (
        "other from the first line on")
    lines = [since, f"- {told(old, one, front)}", f"+ {told(new, two, front)}"]
    others = len(one) - front - end, len(two) - front - end
    lines.append(f"other in {counted(others[0])} before and {counted(others[1])} now")
    if end:
        lines.append(f"the same again from {milliseconds(time_of(one[-end]))} on, {counted(end)}")
    return lines
