"""A machine with PDOs as vendors make them: its DCFs imported, and exported again by a script of version 3, in which the manager
has a number of its own (test_master.py has it run in the controller).

What the files say is read by dcf_reader, which is written apart; python3-canmatrix reads the DBC where that is installed.
"""
import json
import os
import re
import subprocess

import machine_files
from dcf_reader import Dcf, links
from helper import put, recorded, run
from test_dbc import CANMATRIX, dbc, python_with_canmatrix, read_dbc
from test_matrix import matrix

from cobench_tools import wire_bits

COMMUNICATION = {0x1400: (2, 5), 0x1800: (2, 3, 5)}


def imported():
    """The script that is made of the DCFs, in the folder of this test, and the DCFs by their nodes."""
    names = machine_files.write_all()
    status, made, faults = run("import", "--manager", "0", "--sheets", "sheets", *names.values())
    assert (status, faults) == (0, "10_controller.dcf:80: warning: it sends SYNC (1005h), and by the script the manager does: both do\n"), faults
    put("made.txt", made + b"horizon 520000\n")
    return made.decode(), {node: read(name) for node, name in names.items()}


def read(path):
    with open(path, encoding="latin-1") as opened:
        return Dcf(opened.read())


def on_bus(dcf):
    """What of a DCF matters on the bus: the PDOs that are on, their types and times. An RPDO of any type to 240 waits for SYNC."""
    found = []
    for first, subs in COMMUNICATION.items():
        for number, identifier, items in dcf.pdos(first):
            values = [dcf.number(first + number - 1, sub) for sub in subs]
            values[0] = 0 if first == 0x1400 and values[0] <= 240 else values[0]
            found.append((first, number, identifier, items, values))
    return found


def test_import_says_all_of_the_machine():
    made, _ = imported()
    assert made.splitlines()[1] == "version 3" and "\nmanager 127 4000 0 500\n" in made
    assert "\nmessage encoder_2 30 2 1 0 0 29E\nsource encoder_2 1 6004 0\nsink encoder_2 1 10 A240 1\nreceive encoder_2 10 1 12\n" in made
    assert "\nmessage pressure_1 31 1 255 0 200 19F\n" in made, "the transmitter's one PDO can't be moved"
    receives = re.findall(r"(?m)^receive (.*)", made)
    assert len(receives) == 20 and "controller_5 5 2 20" in receives and "controller_7 20 1 500" in receives, receives
    assert not [each for each in receives if each.startswith("controller_10")], "the gateway's RPDO 1 takes it in any case"


def test_export_gives_the_machine_again():
    _, before = imported()
    status, output, faults = run("export", "--cobench", recorded(), "files", "made.txt")
    assert status == 0 and "no errors, no warnings; 13 of 13 nodes booted" in output.decode() + faults, (output, faults)
    after = {dcf.node: dcf for dcf in (read(os.path.join("files", name)) for name in os.listdir("files") if name.endswith(".dcf"))}
    assert after.keys() == before.keys()
    for node, dcf in before.items():
        assert on_bus(after[node]) == on_bus(dcf), (node, on_bus(after[node]), on_bus(dcf))
        assert after[node].number(0x1017, 0) == dcf.number(0x1017, 0) and after[node].number(0x6080, 0) == dcf.number(0x6080, 0)
    assert links(after.values()) == links(before.values()) and len(links(after.values())) == 40


def test_unused_pdos_are_silent():
    """Each frame of the run is a boot's, SYNC, a heartbeat, or one of a PDO that the files have on."""
    _, before = imported()
    run("export", "--cobench", recorded(), "files", "made.txt")
    with open(os.path.join("files", "trace.txt")) as opened:
        sent = {int(line.split()[1], 16) for line in opened if "note" not in line}
    planned = {pdo[1] for dcf in before.values() for pdo in dcf.pdos(0x1800)}
    services = {0x000, 0x080, 0x77F} | {base + node for base in (0x580, 0x600, 0x700) for node in before}
    assert sent - planned <= services, sorted(map(hex, sent - planned - services))
    assert {0x29E, 0x281, 0x285} <= sent, "PDOs at each SYNC"


def test_the_tables_say_who_takes_what_within_which_time():
    imported()
    rows = matrix("--format", "csv", "--table", "messages", given="made.txt")[1].decode().splitlines()
    found = {row.split(",")[1]: row for row in rows}
    assert found["encoder_2"].endswith('"controller (RPDO 1, within 12 ms)"') and found["controller_5"].endswith('"axis5 (RPDO 2, within 20 ms)"')
    assert found["io20_1"].endswith("controller (RPDO 8)") and found["controller_10"].endswith('"gateway (RPDO 1, within 500 ms)"')
    assert not [row for row in rows if "(by default)" in row], "what no message uses is off"


def test_canmatrix_reads_the_machine():
    python = python_with_canmatrix()
    _, before = imported()
    put("network.dbc", dbc("made.txt")[1])
    done = subprocess.run([python, "-c", CANMATRIX, "network.dbc"], stdout=subprocess.PIPE, stderr=subprocess.DEVNULL, check=True)
    frames, complaints = json.loads(done.stdout)
    with open("network.dbc", encoding="cp1252") as opened:
        assert not complaints and sorted(frames) == sorted(read_dbc(opened.read()))
    found = {(number, sender, start, bits, taker) for number, _, _, (sender,), signals in frames
             for _, start, bits, _, _, _, _, takers in signals for taker in takers or [None]}
    expected = {(identifier, sender, start, bits, taker and taker[0])
                for identifier, sender, _, start, bits, _, _, taker in links(before.values())}
    assert found == expected, found ^ expected


def conform(change):
    """What `conform` says of the run of the machine, with its lines changed."""
    imported()
    run("export", "--cobench", recorded(), "files", "made.txt")
    with open(os.path.join("files", "trace.log")) as opened:
        put("run.log", "".join(change(opened.readlines())).encode())
    return run("conform", "--cobench", recorded(), "made.txt", "run.log")[1].decode().splitlines()


def test_conform_takes_the_run_of_the_machine_for_planned():
    lines = conform(lambda lines: lines)
    assert len(lines) == 2 and lines[0].startswith("no errors, no warnings; "), lines
    told = re.match(r"load (\S+) % with stuff bits; its peak in 100 ms (\S+) %", lines[1])
    with open(os.path.join("files", "trace.txt")) as opened:
        frames = [line.split() for line in opened if "note" not in line]
    bits = sum(wire_bits.exact_bits(int(frame[1], 16), bytes.fromhex("".join(frame[3:]))) for frame in frames)
    span = int(frames[-1][0]) - int(frames[0][0])
    assert told and abs(float(told.group(1)) - 200 * bits / span) < 0.1, (lines[1], 200 * bits / span)


def test_conform_tells_what_is_not_as_planned():
    """The encoder doesn't send its message; or it goes on sending by the TPDO that is off."""
    lines = conform(lambda lines: [line for line in lines if " 29E#" not in line])
    assert "message encoder_2" in lines[0] and "[pdo-missing]" in lines[0] and lines[2].startswith("1 error, "), lines
    lines = conform(lambda lines: lines[:-1] + [lines[-1].rsplit(" ", 1)[0] + " 19E#00000000\n"])
    assert "19Eh" in lines[0] and "[pdo-unplanned]" in lines[0] and lines[1].startswith("1 error, "), lines


def test_what_differs_without_a_time():
    made, _ = imported()
    for name, text in (("made.txt", made), ("other.txt", made.replace("receive encoder_2 10 1 12", "receive encoder_2 10 1 0"))):
        put(name, text.encode() + b"horizon 0\n")
    status, output, faults = run("diff", "--cobench", recorded(), "made.txt", "other.txt")
    assert "taken by controller: RPDO 1, within 12 ms -> RPDO 1\n" in output.decode(), (status, output, faults)
