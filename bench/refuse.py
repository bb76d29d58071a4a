#!/usr/bin/env python3
"""Refuses each growth of memory of the built program in turn, and judges what it wrote.

Takes the path of the program, and names of sessions, or none for all:

  heartbeat   one node with a heartbeat time: its files and its trace
  two_sources two sources of a message and one sink: its plan, and the files of sender and receiver
  too_wide    a message of over 64 bits, and what is said of it
  inhibit     a TPDO of an event-driven type with an inhibit time
  edited      an event that is edited and edited back, with the trace after each
  label       a label in an EDS that is edited: the file is another, the trace the same
  every       each kind of edit and each query

Each `trace` is asked twice. A run must end with status 1 and `cobench: 1 Memory`, and have written a front of the
replies that ends at a whole reply; or, where a smaller growth served in place of the refused one, with status 0 and
all replies. Wants gcc.
Run it from anywhere: bench/refuse.py crates/cobench/out/cobench
"""
import memory

PUMP = """[FileInfo]
FileName=a.eds
[1000]
ParameterName=Device type
DataType=0x0007
AccessType=ro
DefaultValue=0
[1017]
ParameterName=Producer heartbeat time
DataType=0x0006
AccessType=rw
DefaultValue=0
[2001]
ParameterName=Label
DataType=0x0009
AccessType=rw"""

MODULE = """[DummyUsage]
Dummy0006=1
[1400sub1]
DataType=7
DefaultValue=$NODEID+0x80000200
[1400sub2]
DataType=5
DefaultValue=255
[1600]
ObjectType=9
DataType=7
CompactSubObj=8
[1600sub0]
DataType=5
[1800sub1]
DataType=7
DefaultValue=$NODEID+0xC0000180
[1800sub2]
DataType=5
DefaultValue=255
[1800sub3]
DataType=6
[1800sub5]
DataType=6
[1A00]
ObjectType=9
DataType=7
CompactSubObj=8
[1A00sub0]
DataType=5
[2000]
DataType=5
PDOMapping=1
[2002]
DataType=6
PDOMapping=1
[2003]
DataType=0x1B
PDOMapping=1"""


def eds(name, text):
    return f"eds {name} {len(text.splitlines())}\n{text}\n"


PUMPED = eds("a", PUMP) + "node 5 pump a\nhorizon 150000\nparam 5 1017 0 100\ncdcf 5\ndcf 5\ntrace\ntrace\n"

SESSIONS = {
    "heartbeat": PUMPED,
    "two_sources": eds("b", MODULE) + """node 5 p b
node 6 q b
message m 5 1 255 0 0 0
source m 1 2000 0
source m 2 2002 0
sink m 1 6 2000 0
diag
cdcf 6
cdcf 5
dcf 6
""",
    "too_wide": eds("b", MODULE) + """node 5 p b
message m 5 1 255 0 0 0
source m 1 2003 0
source m 2 2000 0
diag
cdcf 5
""",
    "inhibit": eds("b", MODULE) + """node 5 p b
horizon 9000
message m 5 1 255 10 0 0
source m 1 2000 0
event 1 5000 set 5 2000 0 1
event 2 5300 set 5 2000 0 2
event 3 5600 set 5 2000 0 3
event 4 6200 set 5 2000 0 4
event 5 6400 set 5 2000 0 3
trace
trace
""",
    "edited": eds("b", MODULE) + """node 5 p b
horizon 100000
message m 5 1 255 0 0 0
source m 1 2000 0
event 1 20000 set 5 2000 0 1
event 2 40000 set 5 2000 0 7
trace
trace
event 1 20000 set 5 2000 0 2
trace
trace
event 1 20000 set 5 2000 0 1
trace
trace
""",
    "label": PUMPED + eds("a", PUMP.replace("ParameterName=Label", "ParameterName=Tag")) + "dcf 5\ntrace\ntrace\n",
    "every": eds("a", PUMP) + eds("b", MODULE) + eds("c", "[2000]\nDataType=5") + """version 2
bitrate 500
manager 127 10000 100 500
sync-counter 4
horizon 60000
node 5 pump a
node 6 q b
node 7 r b
node 8 s c
need 7 mandatory
need 8 mandatory
param 5 1017 0 20
param 5 2001 0 ABCDEFGHIJ
param 6 2000 0 7
unparam 6 2000 0
message m 6 1 255 0 2 0
source m 1 2000 0
source m 2 2002 0
unsource m 2
sink m 1 7 2000 0
message n 7 1 1 0 0 0
start n 2
source n 1 2000 0
sink n 1 6 2000 0
unsink n 1 6
message o 8 1 255 0 0 0
drop-message o
event 1 20000 set 6 2000 0 9
event 2 30000 power 5 off
event 3 40000 power 5 on
event 4 45000 nmt 129 7
event 5 46000 nmt 1 0
drop-event 5
diag
diag
dcf 5
dcf 6
cdcf 6
cdcf 7
trace
trace
need 7 optional
trace
drop-node 8
drop-eds c
project
trace
diag
""",
}


def ends_of_replies(text):
    """Each length at which a front of the replies ends at a whole reply."""
    ends, at, lines = {0}, 0, text.split(b"\n")[:-1]
    while lines:
        count = 1 + (int(lines[0][6:]) if lines[0].startswith(b"lines ") else 0)
        at += sum(len(line) + 1 for line in lines[:count])
        ends.add(at)
        lines = lines[count:]
    return ends


def judge(whole, one):
    """How a run ended: with all replies, with Memory behind a whole one, or wrongly."""
    if one.returncode == 0 and one.stdout == whole.stdout:
        return "served"
    is_front = whole.stdout.startswith(one.stdout) and len(one.stdout) in ends_of_replies(whole.stdout)
    return "ended" if is_front and one.returncode == 1 and one.stderr == b"cobench: 1 Memory\n" else "wrong"


def check(program, name, library):
    """Whether each run over a session ends rightly, and what was counted."""
    ends = memory.refuse_each(judge, program, SESSIONS[name].encode(), library)
    return "wrong" not in ends, f"{len(ends):6} growths, each refused once: {ends.count('wrong')} wrong"


if __name__ == "__main__":
    memory.main(__doc__, check, SESSIONS)
