#!/usr/bin/env python3
"""Times `cobtool lsp` from a keystroke to what the editor is told, beside a server that reloads, by turns.

Takes the path of the built program. Two scripts: the example servo_axes, and 126 nodes of two data sheets of
60,000 lines each. In each a digit of a parameter is typed, a completion and a hover are asked for. It times

    reload    the script loaded afresh as `cobtool check` does: cobench, all queries, findings
    typed     a change sent to `cobtool lsp`, until its diagnostics are there, what the run shows among them or not
    complete  a completion of the objects of a node
    hover     a hover over an object

Prints the least and the middle of so many turns in milliseconds. Limits: 50 ms for typed in the example, 150 ms with
126 nodes, 10 ms for complete and hover, by the least turn. Run it from anywhere:
bench/lsp.py crates/cobench/out/cobench
"""
import os
import statistics
import subprocess
import sys
import tempfile
import time

HERE = os.path.dirname(os.path.abspath(__file__))
TOOLS = os.path.join(HERE, "..", "tools")
sys.dont_write_bytecode = True
sys.path[:0] = [TOOLS, os.path.join(TOOLS, "tests")]

from cobench_tools import judgement, session
from cobench_tools.evidence import Evidence
from live_scene import day_script
from lsp_scene import Editor

TURNS = 9
NODES, ENTRIES, LINES = 126, 4000, 60_000
ENTRY = """[{index:04X}]
ParameterName=Value {index}
DataType=6
AccessType=rw
DefaultValue=0
HighLimit=9999
PDOMapping=1
"""
FIRST = "[1000]\nDataType=7\nAccessType=ro\nDefaultValue=1\n[1017]\nParameterName=Heartbeat\nDataType=6\n"
LIMITS = {"typed": {"axes": 50, "large": 150}, "complete": 10, "hover": 10}


def axes():
    """The example, with its data sheets beside it."""
    folder = os.path.join(HERE, "..", "examples")
    return day_script().replace("<", f"<{os.path.abspath(folder)}/"), "param 1 1017 0 100"


def large():
    """126 nodes of two data sheets of 60,000 lines."""
    for name in "ab":
        text = FIRST + "".join(ENTRY.format(index=0x2000 + place) for place in range(ENTRIES))
        with open(f"{name}.eds", "w") as file:
            file.write(text + ";\n" * (LINES - text.count("\n")))
    nodes = "".join(f"node {node} n{node} {'ab'[node % 2]}\nparam {node} 1017 0 100\n" for node in range(1, NODES + 1))
    return f"horizon 100000\neds a <a.eds\neds b <b.eds\n{nodes}", "param 60 1017 0 100"


def milliseconds(work):
    start = time.perf_counter()
    work()
    return 1000 * (time.perf_counter() - start)


def reload(program):
    judgement.of_check(session.run("network.txt", program, Evidence.QUERIES))


def measure(program, text, line):
    """The milliseconds of each turn of each kind."""
    with open("network.txt", "w") as file:
        file.write(text)
    row, column, index = text[:text.index(line)].count("\n"), len(line), line.index("1017")
    server = subprocess.Popen([sys.executable, os.path.join(TOOLS, "cobtool"), "lsp", "--cobench", program],
                              stdin=subprocess.PIPE, stdout=subprocess.PIPE)
    times = {"reload": [], "typed": [], "complete": [], "hover": []}
    with Editor(source=server.stdout, target=server.stdin) as editor:
        editor.open("network.txt", text)
        for turn in range(TURNS):
            time.sleep(0.5)     # what comes behind the diagnostics is done
            change = row, column - 1, row, column, str(turn % 10)
            times["typed"].append(milliseconds(lambda: editor.change("network.txt", change)))
            time.sleep(0.5)
            times["complete"].append(milliseconds(lambda: editor.at("completion", "network.txt", row, index)))
            times["hover"].append(milliseconds(lambda: editor.at("hover", "network.txt", row, index + 1)))
            times["reload"].append(milliseconds(lambda: reload(program)))
    server.wait()
    return times


def main():
    if len(sys.argv) != 2:
        sys.exit("usage: lsp.py PROGRAM")
    program, failed = os.path.abspath(sys.argv[1]), False
    with tempfile.TemporaryDirectory() as folder:
        os.chdir(folder)
        for make in (axes, large):
            for kind, turns in measure(program, *make()).items():
                limit = LIMITS.get(kind)
                limit = limit.get(make.__name__) if isinstance(limit, dict) else limit
                over = limit is not None and min(turns) > limit
                failed = failed or over
                print(f"{make.__name__:8} {kind:9} {min(turns):9.1f} {statistics.median(turns):9.1f}"
                      f"{': over the limit of ' + str(limit) if over else ''}", flush=True)
    return 1 if failed else 0


sys.exit(main())
