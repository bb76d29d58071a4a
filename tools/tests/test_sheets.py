"""What `eds` and `check` say of data sheets, as checkers of EDS files do."""
import os
import re

from helper import EXAMPLES, TOOLS, example, file, put, recorded, run

from cobench_tools import acceptance

SOUND = b"""[MandatoryObjects]
SupportedObjects=2
1=0x1000
2=0x1001
[OptionalObjects]
SupportedObjects=3
1=0x1800
2=0x1A00
3=0x6040
[ManufacturerObjects]
SupportedObjects=1
1=0x2000
[1000]
ParameterName=Device type
DataType=7
AccessType=ro
[1001]
ParameterName=Error register
DataType=5
AccessType=ro
[1800]
ParameterName=TPDO 1
ObjectType=9
SubNumber=2
[1800sub0]
ParameterName=Highest sub-index
DataType=5
AccessType=ro
[1800sub1]
ParameterName=COB-ID
DataType=7
AccessType=rw
DefaultValue=$NODEID+0x180
LowLimit=0x181
HighLimit=0xFFFFFFFF
[1A00]
ParameterName=TPDO 1 mapping
ObjectType=8
CompactSubObj=4
DataType=7
AccessType=rw
[2000]
ParameterName=Gain
DataType=3
AccessType=rw
LowLimit=0xFF9C
HighLimit=100
DefaultValue=-100
[6040]
ParameterName=Controlword
DataType=6
AccessType=rww
PDOMapping=1
"""

# What is put in the place of what, the line, and what is said of it.
FAULTS = [
    (b"AccessType=rww", b"AccessType=r/w", 52, '6040h:00: AccessType "r/w" is none of ro, wo, rw, rwr, rww, const, and rw is taken for it'),
    (b"PDOMapping=1", b"PDOMapping=yes", 53, '6040h:00: PDOMapping "yes" is neither 0 nor 1, and 0 is taken for it'),
    (b"PDOMapping=1", b"PDOMapping=2", 53, '6040h:00: PDOMapping "2" is neither 0 nor 1, and 1 is taken for it'),
    (b"DataType=6\n", b"", 49, "6040h:00: there is no DataType, so that nothing is written, sent or simulated of it"),
    (b"DataType=6\n", b"DataType=UNSIGNED16\n", 51, '6040h:00: DataType "UNSIGNED16" is no number'),
    (b"DefaultValue=-100", b"DefaultValue=-101", 48, "2000h:00: DefaultValue -101 is below the LowLimit 0xFF9C"),
    (b"DefaultValue=-100", b"DefaultValue=101", 48, "2000h:00: DefaultValue 101 is above the HighLimit 100"),
    (b"$NODEID+0x180", b"$NODEID+0x17F", 33, "1800h:01: DefaultValue $NODEID+0x17F is below the LowLimit 0x181"),
    (b"HighLimit=100", b"HighLimit=-101", 47, "2000h:00: HighLimit -101 is below LowLimit 0xFF9C"),
    (b"SubNumber=2", b"SubNumber=3", 24, "1800h: SubNumber is 3, and there are 2 sub-indexes"),
    (b"[1A00]", b"[1A01]", 21, "1800h: it is the communication object of a PDO, and there is no mapping object 1A00h"),
    (b"[1A00]", b"[1A01]", 36, "1A01h: it is the mapping object of a PDO, and there is no communication object 1801h"),
    (b"[1A00]", b"[1A01]", 8, "1A00h: [OptionalObjects] has it, and there is no section [1A00]"),
    (b"[1A00]", b"[1A01]", 36, "1A01h: it stands in no list of objects: [OptionalObjects] is its place"),
    (b"SupportedObjects=1", b"SupportedObjects=2", 11, "[ManufacturerObjects] has SupportedObjects=2, and 1 object"),
    (b"3=0x6040", b"3=0x1001", 9, "1001h: [OptionalObjects] has it, and [MandatoryObjects] too"),
    (b"1=0x2000", b"1=0x6040", 12, "6040h: [ManufacturerObjects] has it, and [OptionalObjects] too"),
    (b"[2000]", b"[6000]", 42, "6000h: it stands in no list of objects: [OptionalObjects] is its place"),
    (b"3=0x6040", b"3=0x6040\n[Comments]\nLines=0\n[6040]\nObjectFlags=0", 53, "[6040] stands in line 12 already"),
    (b"[6040]", b"[C040]", 49, "C040h: CiA 301 reserves C000h to FFFFh"),
    (b"ParameterName=Controlword", b"ParameterName=gain", 50, 'ParameterName "gain" is the name of 2000h too'),
    (b"ParameterName=COB-ID", b"ParameterName=Highest sub-index", 30, 'ParameterName "Highest sub-index" is the name of 1800h:00 too'),
]


def eds(*words):
    status, output, faults = run("eds", *words)
    return status, faults.splitlines()


def test_each_fault_is_a_warning_at_its_line():
    put("sound.eds", SOUND)
    assert eds("d", "sound.eds") == (0, [])
    for before, behind, line, text in FAULTS:
        assert SOUND.count(before) >= 1, before
        put("bad.eds", SOUND.replace(before, behind, 1))
        status, lines = eds("d", "bad.eds")
        assert status == 0 and any(each.startswith(f"bad.eds:{line}: warning: data sheet d: ") and text in each for each in lines), (
            line, text, lines)


def test_the_block_is_printed_as_before():
    put("bad.eds", SOUND.replace(b"rww", b"r/w"))
    assert run("eds", "d", "bad.eds")[1] == b"eds d 53\n" + SOUND.replace(b"rww", b"r/w")


def test_one_fault_of_many_entries_is_one_finding():
    put("bad.eds", SOUND.replace(b"AccessType=rw\n", b"AccessType=r/w\n"))
    assert eds("d", "bad.eds") == (0, [
        'bad.eds:32: warning: data sheet d: AccessType "r/w" is none of ro, wo, rw, rwr, rww, const, and rw is taken for it: '
        "1800h:01 (line 32), 2000h:00 (line 45) [sheet]"])


def test_a_fault_is_accepted_by_its_words():
    put("bad.eds", SOUND.replace(b"rww", b"r/w").replace(b"SubNumber=2", b"SubNumber=3"))
    assert eds("--werror", "d", "bad.eds")[0] == 1
    assert eds("--werror", "--allow", "sheet d access 6040 00", "--allow", "sheet d subs", "d", "bad.eds") == (0, [])
    put("accepted.txt", b"sheet d # of the vendor\n")
    assert eds("--werror", "--allow-from", "accepted.txt", "d", "bad.eds") == (0, [])


def test_the_examples_have_no_fault():
    names = [name for name in os.listdir(EXAMPLES) if name.endswith(".eds")]
    assert len(names) >= 4
    for name in names:
        assert eds("x", example(name)) == (0, []), name


def test_check_says_the_same():
    put("bad.eds", SOUND.replace(b"rww", b"r/w"))
    put("net.txt", b"eds d <bad.eds\n")
    status, output, faults = run("check", "--cobench", recorded(), "net.txt")
    assert status == 0 and output.decode().splitlines()[0] == eds("d", "bad.eds")[1][0], output
    assert run("check", "--cobench", recorded(), "--werror", "--allow", "sheet d", "net.txt")[0] == 0
    assert b"6040h:00" not in run("matrix", "--cobench", recorded(), "net.txt")[1] + run("matrix", "--cobench", recorded(), "net.txt")[2].encode()


def test_one_file_of_acceptances_serves_all_commands():
    """None of them says of a rule of another command that nothing is accepted by it; of a slip each does."""
    put("net.txt", b"eds d 2\n[1017]\nDataType=6\nnode 5 pump d\nparam 5 3000 0 1\n")
    put("accepted.txt", b"E01 param 5\nsheet d\nlate x\nnever-boots 5\nE03 param 7\nspelled wrong\n")
    words = "--allow-from", "accepted.txt", "--cobench", recorded(), "net.txt"
    unused = "accepted.txt:%d: note: nothing is accepted by '%s'\n"
    for command, notes in (("check", [(2, "sheet d"), (5, "E03 param 7"), (6, "spelled wrong")]),
                           ("matrix", [(5, "E03 param 7"), (6, "spelled wrong")]),
                           ("load", [(3, "late x"), (5, "E03 param 7"), (6, "spelled wrong")])):
        status, _, faults = run(command, *words)
        assert status == 0 and faults == "".join(unused % note for note in notes), (command, faults)
    put("sheet.eds", b"[1017]\nDataType=6\n")
    assert run("eds", "--allow-from", "accepted.txt", "d", "sheet.eds")[2] == "".join(
        unused % note for note in [(2, "sheet d"), (6, "spelled wrong")])


def test_every_code_is_known_to_the_acceptances():
    """Those of the tables of tools/README.md, so that a rule of one command is no slip to another."""
    text = file(TOOLS, "README.md").decode()
    part = text[text.index("### What `check` reports"):text.index("In place, without pip")]
    tables = re.findall(r"(?m)^\| Code[^|]*\|.*\n\|[-|]+\n((?:\|.*\n)+)", part)
    codes = {words.split(" ")[0] for table in tables for line in table.splitlines()
             for words in line.split("|")[1].replace("`", "").strip().split(", ")}
    assert len(tables) == 3 and len(codes) > 45 and codes <= acceptance.KNOWN, codes - acceptance.KNOWN


def test_conform_accepts_errors_of_the_script_by_the_same_file():
    """The example ends with three refused commands, which `check` tells too."""
    put("accepted.txt", b"refused\nsheet servo\nlate targets\n")
    words = "conform", "--trace", "0", "--cobench", recorded(), example("servo_axes.txt"), example("servo_axes.log")
    assert "the script itself has 3 errors" in run(*words)[1].decode()
    status, output, faults = run(*words[:1], "--allow-from", "accepted.txt", *words[1:])
    assert "the script itself" not in output.decode() and not faults, (output, faults)
