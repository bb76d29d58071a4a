"""Small good files of each kind that the tools read: a network of two nodes, its replies, trace, logs, files and acceptances."""
import contextlib
import io
import os
import tempfile

from helper import recorded, recorded_replies
from cobench_tools import main, trace
from cobench_tools.logs import writers

SHEET = b"""[DeviceInfo]
VendorName=Test
ProductName=Drive
BaudRate_500=1
[DummyUsage]
Dummy0005=1
[1000]
ParameterName=Device type
DataType=7
AccessType=ro
DefaultValue=0x00020192
[1001]
ParameterName=Error register
DataType=5
AccessType=ro
[1016]
ParameterName=Consumers
ObjectType=8
DataType=7
AccessType=rw
CompactSubObj=2
[1016Value]
NrOfEntries=1
1=0x007F0096
[1017]
ParameterName=Heartbeat
DataType=0x0006
AccessType=rw
LowLimit=0
HighLimit=1000
[1400]
ParameterName=RPDO
ObjectType=9
[1400sub1]
DataType=7
DefaultValue=$NODEID+0x80000200
[1400sub2]
DataType=5
DefaultValue=255
[1600sub0]
DataType=5
[1600sub1]
DataType=7
[1600sub2]
DataType=7
[1800]
ParameterName=TPDO
ObjectType=9
[1800sub1]
DataType=7
DefaultValue=$NODEID+0x80000180
[1800sub2]
DataType=5
DefaultValue=255
[1800sub3]
DataType=6
[1800sub5]
DataType=6
[1A00sub0]
DataType=5
[1A00sub1]
DataType=7
[1A00sub2]
DataType=7
[2000]
ParameterName=Speed \xb0
DataType=3
AccessType=ro
PDOMapping=1
[2001]
ParameterName=Text
DataType=9
AccessType=rw
[2002]
ParameterName=Wanted
DataType=3
AccessType=rww
PDOMapping=1
"""
PART = b"message speed 5 1 1 0 0 0\nsource speed 1 2000 0\nsink speed 1 6 2002 0\n"
SCRIPT = b"""# A network
eds drive <sheet.eds
bitrate 500
horizon 40000
manager 127 10000 100 50
node 5 pump drive
node 6 fan drive  \t
param 5 1017 0 20
param 6 1017 0 0x14
param 5 2001 0 a text
<part.txt
event 1 20000 set 5 2000 0 -7
event 2 25000 power 6 off
event 3 30000 nmt 128 5
"""
QUERIES = b"dcf 5\ndcf 6\ncdcf 5\ndiag\ntrace\n"
ACCEPTED = b"# accepted\nE02 default 5\nunconfigured 5\nfailed 6 # always\nW20 eds drive\n"
COMMISSIONING = b"[DeviceComissioning]\nNodeID=7\nNodeName=Pump\nBaudrate=500\nNetNumber=1\n"
LOGS = ("log", "asc", "trc", "trc21", "csv", "candump")
NAMES = ("scripts", "sheets", "dcfs", "replies", "traces", *(f"logs_{form}" for form in LOGS), "acceptances", "manifests")
TERMINAL = b"".join(b" (%03d.%06d)  can0  %03X   [%d]  %s\n" % (number, 100 * number, 0x185 + number % 3, 2, b"0A FF") for number in range(20))


def run(*words):
    """Has a command do its work here, with nothing shown; it has to be able to."""
    with contextlib.redirect_stdout(io.TextIOWrapper(io.BytesIO())):
        assert main.main([*words]) == 0, words


def answers_of(replies):
    """The lines of each answer among replies."""
    lines, found, at = replies.split(b"\n"), [], 0
    while at < len(lines):
        count = int(lines[at][6:]) if lines[at].startswith(b"lines ") else 0
        if lines[at].startswith(b"lines "):
            found.append(lines[at + 1:at + 1 + count])
        at += 1 + count
    return found


def network():
    """The files of the network, by their names."""
    expanded = b"".join([b"eds drive %d\n%s" % (SHEET.count(b"\n"), SHEET), *SCRIPT.replace(b"<part.txt\n", PART).splitlines(True)[2:]])
    replies = recorded_replies(expanded + QUERIES)
    first, second, _, _, traced = answers_of(replies)
    files = {"net.txt": SCRIPT, "part.txt": PART, "sheet.eds": SHEET, "session.txt": SCRIPT + QUERIES, "replies.txt": replies,
             "trace.txt": b"\n".join(traced) + b"\n", "a.dcf": b"\n".join(first) + b"\n", "b.dcf": b"\n".join(second) + b"\n",
             "c.dcf": SHEET.replace(b"HighLimit=1000", b"HighLimit=1000\nParameterValue=50") + COMMISSIONING, "accepted.txt": ACCEPTED,
             "run.candump": TERMINAL}
    frames = trace.frames_of(trace.trace_of(traced))[:60]
    for form in LOGS[:-1]:
        files[f"run.{form}"] = writers.log_of(frames, form, 1).encode()
    return {**files, **exported(files)}


def readers(files):
    """The readers: the name of each, its files, those that are damaged, and the commands that read them."""
    with_program = ("--cobench", recorded())
    logs = {f"logs_{form}": f"run.{form}" for form in LOGS}
    return [
        ("scripts", ("net.txt", "part.txt", "session.txt"), [
            ("expand", "net.txt"), ("refusals", "session.txt", "replies.txt"), ("explain", "net.txt", "trace.txt"),
            ("explain", "--signals", "session.txt", "replies.txt"), ("stats", "--script", "net.txt", "trace.txt"),
            ("timeline", "--script", "session.txt", "replies.txt")]),
        ("sheets", ("sheet.eds",), [
            ("eds", "x", "sheet.eds"), ("expand", "net.txt"), ("explain", "--names", "net.txt", "trace.txt"),
            ("explain", "--csv", "session.txt", "replies.txt"), ("stats", "--script", "net.txt", "trace.txt")]),
        ("dcfs", ("a.dcf", "b.dcf", "c.dcf"), [("import", "a.dcf", "b.dcf"), ("import", "c.dcf"), ("import", "--all", "c.dcf", "a.dcf")]),
        ("replies", ("replies.txt",), [
            ("refusals", "session.txt", "replies.txt"), ("explain", "session.txt", "replies.txt"), ("stats", "replies.txt"),
            ("candump", "replies.txt"), ("timeline", "--script", "session.txt", "replies.txt")]),
        ("traces", ("trace.txt",), [
            ("stats", "trace.txt"), ("candump", "trace.txt"), ("explain", "--names", "net.txt", "trace.txt"), ("timeline", "trace.txt")]),
        *((name, (log,), [("conform", *with_program, "net.txt", log)] + 9 * [("rows", log)]) for name, log in logs.items()),
        ("acceptances", ("accepted.txt",), [("check", *with_program, "--allow-from", "accepted.txt", "net.txt")]),
        ("manifests", tuple(name for name in files if name.startswith("files/")), [("check", *with_program, "--files", "files", "net.txt")]),
    ]


def exported(files):
    """What an export of the network writes, by its names."""
    start = os.getcwd()
    with tempfile.TemporaryDirectory() as folder:
        os.chdir(folder)
        try:
            for name in ("net.txt", "part.txt", "sheet.eds"):
                with open(name, "wb") as file:
                    file.write(files[name])
            run("export", "--force", "--cobench", recorded(), "files", "net.txt")
            return {os.path.join("files", name): read(os.path.join("files", name)) for name in os.listdir("files")}
        finally:
            os.chdir(start)


def read(path):
    with open(path, "rb") as file:
        return file.read()
