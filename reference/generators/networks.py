"""Small networks with messages and events: many fit, some don't."""

TEXT = """[DummyUsage]
Dummy0001=1
Dummy0005=1
Dummy0006=1
Dummy0007=1
[1000]
DataType=7
DefaultValue=%(type)d
[1001]
DataType=5
PDOMapping=1
[1005]
DataType=7
DefaultValue=%(sync)s
[1016]
ObjectType=8
DataType=7
CompactSubObj=3
[1017]
DataType=6
[1019]
DataType=5
DefaultValue=%(counter)d
[2000]
DataType=5
PDOMapping=1
HighLimit=200
[2001]
DataType=1
PDOMapping=1
[2002]
DataType=6
PDOMapping=1
[2003]
DataType=0x1B
PDOMapping=1
[2004]
DataType=2
PDOMapping=1
LowLimit=-5
[2005]
DataType=9
"""
PDO = """[%(c)04X]
ObjectType=9
DataType=7
CompactSubObj=1
[%(c)04Xsub2]
DataType=5
DefaultValue=255
[%(c)04Xsub3]
DataType=6
[%(c)04Xsub5]
DataType=6
[%(c)04Xsub6]
DataType=5
[%(m)04X]
ObjectType=9
DataType=7
CompactSubObj=8
[%(m)04Xsub0]
DataType=5
"""
ENTRIES = ["1001 0", "2000 0", "2001 0", "2002 0", "2003 0", "2004 0"]


def sheet(r):
    """The lines of a data sheet with three RPDOs and three TPDOs."""
    out = TEXT % {"type": r.choice([0, 0, 1]), "sync": r.choice(["0x80", "0x80", "0", "0x185"]),
                  "counter": r.choice([0, 0, 3])}
    for base in (0x1400, 0x1800):
        for k in range(3):
            part = PDO % {"c": base + k, "m": base + 0x200 + k}
            out += part.replace("CompactSubObj=1\n", "CompactSubObj=1\nDefaultValue=0x80000000\n")
    return out.rstrip("\n").split("\n")


def script(r):
    """A network with messages and events, and all queries of it."""
    horizon = r.choice([12000, 20000, 40000])
    lines = settings(r, horizon)
    names = ["a", "b"]
    for name in names:
        text = sheet(r)
        lines += [f"eds {name} {len(text)}", *text]
    nodes = r.sample([2, 3, 5, 6], r.choice([2, 3]))
    lines += [f"node {node} n{node} {r.choice(names)}" for node in nodes]
    if r.random() < 0.3:
        lines += ["version 2", f"need {r.choice(nodes)} mandatory"]
    for node in nodes:
        lines += parameters(r, node, nodes)
    for k in range(r.randrange(5)):
        lines += message(r, f"m{k}", nodes)
    for k in range(1, r.randrange(2, 14)):
        time = r.choice([r.randrange(horizon), r.randrange(0, horizon, 1000)])
        lines.append(f"event {k} {time} {event(r, nodes)}")
    lines += ["diag", *(f"dcf {node}" for node in nodes), f"cdcf {nodes[0]}", "trace", "project"]
    return "".join(line + "\n" for line in lines).encode()


def settings(r, horizon):
    lines = [f"bitrate {r.choice([1000, 1000, 1000, 500])}", f"horizon {horizon}"]
    numbers = r.choice([1, 127]), r.choice([0, 1000, 1500, 3000]), r.choice([0, 2, 5]), r.choice([1, 2, 500])
    lines.append("manager %d %d %d %d" % numbers)
    return lines + ([f"sync-counter {r.choice([2, 3, 4])}"] if r.random() < 0.4 else [])


def parameters(r, node, nodes):
    lines = [f"param {node} 1017 0 {r.choice([1, 2, 3])}"] if r.random() < 0.6 else []
    for sub in (1, 2):
        if r.random() < 0.5:
            producer, time = r.choice(nodes + [127]), r.choice([1, 2, 3, 4])
            lines.append(f"param {node} 1016 {sub} 0x{producer << 16 | time:X}")
    return lines + ([f"param {node} 2005 0 some text here"] if r.random() < 0.2 else [])


def message(r, name, nodes):
    sender = r.choice(nodes)
    numbers = (r.randint(1, 3), r.choice([0, 1, 2, 3, 254, 255, 255, 252]), r.choice([0, 0, 3, 10, 25]), r.choice([0, 0, 1, 2]),
               r.choice(["0", "0", "0", "0", "185", "190", "80"]))
    lines = [f"message {name} {sender} %d %d %d %d %s" % numbers]
    if r.random() < 0.3:
        lines.append(f"start {name} {r.randint(0, 4)}")
    for position in range(1, r.randint(1, 4)):
        entry = r.choice(ENTRIES[:4] + ENTRIES[5:])
        lines.append(f"source {name} {position} {entry}")
        if r.random() < 0.7:
            lines.append(f"sink {name} {position} {r.choice([node for node in nodes if node != sender])} {entry}")
        if r.random() < 0.05:
            lines.append(f"sink {name} {position} {r.choice(nodes)} {r.choice(ENTRIES)}")
    return lines


def event(r, nodes):
    node = r.choice(nodes)
    return r.choice([
        f"set {node} {r.choice(ENTRIES)} {r.randrange(3)}", f"set {node} {r.choice(ENTRIES)} {r.randrange(250)}",
        f"set {node} 1017 0 {r.randrange(3)}", f"set {node} 1016 1 0", f"power {node} {r.choice(['on', 'off'])}",
        f"nmt {r.choice([1, 1, 2, 128, 129, 130])} {r.choice(nodes + [0])}"])
