"""`dbc`: by a small strict reader of DBCs, and by python3-canmatrix where that is installed."""
import json
import re
import shutil
import struct
import subprocess
import sys

import networks
from helper import BINARY, Skipped, example, is_refused, put, recorded, run
from scales import scales
from test_matrix import matrix

MESSAGE = re.compile(r"BO_ (\d+) ([A-Za-z_][A-Za-z0-9_]{0,31}): ([0-8]) ([A-Za-z_][A-Za-z0-9_]{0,31})")
SIGNAL = re.compile(r' SG_ ([A-Za-z_][A-Za-z0-9_]{0,31}) : (\d+)\|(\d+)@1([+-]) \(1,0\) \[([-+.0-9e]+)\|([-+.0-9e]+)\] "" ([A-Za-z0-9_,]+)')
VALUE_TYPE = re.compile(r"SIG_VALTYPE_ (\d+) ([A-Za-z_][A-Za-z0-9_]{0,31}) : ([12]);")
NAME, TEXT, WHOLE = "[A-Za-z_][A-Za-z0-9_]{0,31}", '"[^"\\\\\r\n]*"', r"\d+"

# The lines of a DBC in the order in which its grammar has them; those of one place stand in any order.
GRAMMAR = tuple(map(re.compile, (
    'VERSION ""', "NS_ :", r"\t(CM_|BA_DEF_|BA_|BA_DEF_DEF_|SIG_VALTYPE_)", "BS_:", f"BU_:( {NAME})*", f"({MESSAGE.pattern})|({SIGNAL.pattern})",
    f"CM_ (BU_ {NAME}|BO_ {WHOLE}|SG_ {WHOLE} {NAME}) {TEXT};", f"BA_DEF_ (BU_|BO_) {TEXT} INT {WHOLE} {WHOLE};", f"BA_DEF_DEF_ {TEXT} {WHOLE};",
    f"BA_ {TEXT} (BU_ {NAME}|BO_ {WHOLE}) {WHOLE};", VALUE_TYPE.pattern)))

# Prints what canmatrix reads: of each message its number, name, size and senders, and its signals; and its complaints.
CANMATRIX = """
import json, sys, canmatrix.formats
matrix = canmatrix.formats.loadp_flat(sys.argv[1])
signals = lambda frame: [[each.name, each.start_bit, each.size, each.is_little_endian, each.is_signed, float(each.min),
                          float(each.max), sorted(each.receivers)] + [each.size] * each.is_float for each in frame.signals]
frames = [[frame.arbitration_id.id, frame.name, frame.size, frame.transmitters, signals(frame)] for frame in matrix.frames]
print(json.dumps([frames, [str(each) for each in matrix.load_errors]]))
"""


def dbc(given):
    return run("dbc", "--cobench", recorded(), given)


def read_dbc(text):
    """The messages of a DBC, as CANMATRIX prints them, behind a signal that is a REAL how wide that is; each line that begins as one has to be one."""
    frames = []
    for line in text.splitlines():
        if line.startswith("BO_ "):
            number, name, size, sender = MESSAGE.fullmatch(line).groups()
            frames.append([int(number), name, int(size), [sender], []])
        elif line.startswith(" SG_ "):
            name, start, bits, sign, low, high, receivers = SIGNAL.fullmatch(line).groups()
            takers = [] if receivers == "Vector__XXX" else sorted(receivers.split(","))
            frames[-1][4].append([name, int(start), int(bits), True, sign == "-", float(low), float(high), takers])
    for number, name, kind in VALUE_TYPE.findall(text):
        signals = [each for frame in frames if frame[0] == int(number) for each in frame[4] if each[0] == name]
        assert len(signals) == 1, (number, name)
        signals[0].append(32 * int(kind))
    return frames


def places_in_grammar(text):
    """The place in the grammar of each line that isn't empty."""
    return [next(place for place, form in enumerate(GRAMMAR) if form.fullmatch(line)) for line in text.splitlines() if line]


def test_dbc_of_the_example():
    status, output, faults = dbc(example("io_modules.txt"))
    assert status == 0 and not faults
    text = output.decode("cp1252")
    assert read_dbc(text) == [
        [0x181, "outputs", 2, ["line"], [["Output_image_1", 0, 8, True, False, 0, 255, ["infeed"]],
                                        ["Output_image_2", 8, 8, True, False, 0, 255, ["outfeed"]]]],
        [0x18B, "infeed_inputs", 1, ["infeed"],
         [["Read_input_8_bit_Inputs_1_to_8", 0, 8, True, False, 0, 255, ["line"]]]],
        [0x18C, "outfeed_inputs", 1, ["outfeed"],
         [["Read_input_8_bit_Inputs_1_to_8", 0, 8, True, False, 0, 255, ["line"]]]]]
    assert 'CM_ SG_ 385 Output_image_2 "2100h:02 Output image 2; outfeed takes it as 6200h:01 Write output 8-bit' in text
    assert 'BA_ "NodeNumber" BU_ outfeed 12;' in text and "BU_: line infeed outfeed\n" in text


def test_dbc_gives_each_name_once():
    lines = ["eds d 26", "[1800sub1]", "DataType=7", "DefaultValue=0x185", "[1800sub2]", "DataType=5", "DefaultValue=255",
             "[1A00]", "ObjectType=9", "DataType=7", "CompactSubObj=2", "[1A00sub0]", "DataType=5", "DefaultValue=2",
             "[1A00Value]", "[1A00sub1]", "DataType=7", "DefaultValue=0x20000001", "[1A00sub2]", "DataType=7",
             "DefaultValue=0x20010008", "[2000]", "DataType=1", "PDOMapping=1", "ParameterName=K\xe4lte \"an\" \\",
             "[2001]", "DataType=2"]
    lines[0] = f"eds d {len(lines) + 3}"
    lines += ["PDOMapping=1", "LowLimit=-5", "HighLimit=$NODEID", "ParameterName=K\xe4lte (an)", "node 5 5p d", "node 6 Vector__XXX d"]
    put("network.txt", "\n".join(lines).encode("latin-1") + b"\n")
    status, output, faults = dbc("network.txt")
    assert status == 1 and "[E15]" in faults and "TPDO 1 of node 6 is left out: 185h is the identifier of another" in faults
    assert read_dbc(output.decode("cp1252")) == [
        [0x185, "_5p_TPDO1", 2, ["_5p"], [["K_lte_an", 0, 1, True, False, 0, 1, []], ["K_lte_an_2", 1, 8, True, True, -5, 5, []]]]]
    assert "BU_: _5p Vector__XXX_2\n".encode() in output
    assert 'CM_ SG_ 389 K_lte_an "2000h:00 K\xe4lte \'an\' \'";'.encode("cp1252") in output, output


def test_dbc_has_reals_as_signals_of_ieee_754():
    """A REAL32 with the limits of its data sheet, a REAL64 with those of its type, and integers of 24 and 40 bits with those of theirs."""
    status, output, faults = dbc(scales())
    greatest = struct.unpack("<d", struct.pack("<Q", 0x7FEFFFFFFFFFFFFF))[0]
    assert status == 0 and not faults and read_dbc(output.decode("cp1252")) == [
        [0x185, "weight", 7, ["scale"], [["Weight_kg", 0, 32, True, True, -10, 600.5, ["panel"], 32],
                                        ["Turns", 32, 24, True, True, -2**23, 2**23 - 1, ["panel"]]]],
        [0x285, "volume", 8, ["scale"], [["Volume", 0, 64, True, True, -greatest, greatest, ["panel"], 64]]],
        [0x385, "count", 5, ["scale"], [["Count", 0, 40, True, False, 0, 2**40 - 1, []]]]], output
    assert output.endswith(b"SIG_VALTYPE_ 389 Weight_kg : 1;\nSIG_VALTYPE_ 645 Volume : 2;\n"), output


def test_each_line_of_a_dbc_is_one_of_its_grammar():
    for given in (example("servo_axes.txt"), example("io_modules.txt"), scales()):
        text = dbc(given)[1].decode("cp1252")
        places = places_in_grammar(text)
        assert places == sorted(places) and set(range(10)) <= set(places), given
        assert ("SIG_VALTYPE_" in text) == (given == "scales.txt"), given


def python_with_canmatrix():
    """A Python that has canmatrix."""
    for python in (sys.executable, shutil.which("python3", path="/usr/bin")):
        if python and subprocess.run([python, "-c", "import canmatrix.formats"], stderr=subprocess.DEVNULL,
                                     stdout=subprocess.DEVNULL).returncode == 0:
            return python
    raise Skipped("python3-canmatrix isn't installed")


def test_canmatrix_reads_the_same():
    python = python_with_canmatrix()
    for given in [example("servo_axes.txt"), example("io_modules.txt"), scales()] + [put(f"{seed}.txt", networks.network(seed)) for seed in (4, 13, 21)]:
        put("network.dbc", dbc(given)[1])
        done = subprocess.run([python, "-c", CANMATRIX, "network.dbc"], stdout=subprocess.PIPE, stderr=subprocess.DEVNULL, check=True)
        frames, complaints = json.loads(done.stdout)
        with open("network.dbc", encoding="cp1252") as opened:
            expected = read_dbc(opened.read())
        assert expected and not complaints and sorted(frames) == sorted(expected), given


def test_dbc_has_the_signals_of_the_matrix():
    for seed in (4, 13, 21):
        put("network.txt", networks.network(seed))
        rows = matrix("--format", "csv", "--table", "signals", given="network.txt")[1].decode().splitlines()[1:]
        signals = {(row.split(",")[0], row.split(",")[3]) for row in rows}
        frames = read_dbc(dbc("network.txt")[1].decode("cp1252"))
        found = {(f"{frame[0]:03X}h", f"{start}-{start + bits - 1}" if bits > 1 else str(start))
                 for frame in frames for _, start, bits, *_ in frame[4]}
        assert found == signals, seed


def test_dbc_on_bad_input():
    put("binary", BINARY)
    put("cut.txt", b"eds x 3\n")
    for name, says in (("nosuch.txt", "No such file"), ("binary", "this is no text"), ("cut.txt", "0 of the 3 lines")):
        is_refused(dbc(name), says)
    is_refused(run("dbc", "--cobench", '"', example("io_modules.txt")), "No closing quotation")
