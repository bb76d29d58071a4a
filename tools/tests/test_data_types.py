"""The data types that version 3 has besides, through all commands: integers of 24 to 56 bits, REAL32 and REAL64.

Numbers and bytes are those of Python's struct and fractions, or worked out by hand.
"""
import csv
import io
import json
import random
import re
import struct
from fractions import Fraction
from types import SimpleNamespace

from helper import put, recorded, run
from scales import PANEL, SCALE, cobtool, scales

from cobench_tools import data_types, device, picture, reals, session, sheet_faults, values
from cobench_tools.bus import identity
from cobench_tools.bus import value as bus_value
from cobench_tools.evidence import Evidence
from cobench_tools.live.answers import Answers
from cobench_tools.live.run import words_of as run_words
from cobench_tools.lsp import completion, entries, hover

REAL32, REAL64 = 0x08, 0x11
CODES = {REAL32: "<f", REAL64: "<d"}


# Values and their texts.

def bits_of(form, number):
    """The bits of a number in a form of struct."""
    return int.from_bytes(struct.pack(form, number), "little")


def nearest_bits(kind, exact):
    """The bits of the value nearest to a positive fraction, ties to even, by bisection; None where it rounds to infinity."""
    form, infinity = (">f", 0x7F800000) if kind == REAL32 else (">d", 0x7FF0000000000000)
    size = struct.calcsize(form)

    def value(bits):
        if bits == infinity:
            return 2 * Fraction(2)**(127 if kind == REAL32 else 1023)
        return Fraction(struct.unpack(form, bits.to_bytes(size, "big"))[0])

    low, high = 0, infinity
    while high - low > 1:
        middle = (low + high) // 2
        low, high = (middle, high) if value(middle) <= exact else (low, middle)
    below, above = exact - value(low), value(high) - exact
    found = low if below < above or below == above and low % 2 == 0 else high
    return None if found == infinity else found


NEAR_TIES = """0.1 16777217 16777217.000000000000000000000000000000000001 16777218.99999999999999999999999999999 3.40282356779733661637e38
3.4028235677973366163754e38 1e-45 7.1e-46 7e-46 2.4703282292062327208e-324 2.47032822920623272e-324 1e39 1e308 1.8e308"""
NO_DECIMALS = (*". + e5 1e 1e+ 1.2.3 0x10 inf -inf nan NaN 1_0 1,5 $NODEID \u0661 1e9999999999999999999999".split(), "", " 1", "1 ")


def test_a_text_gives_the_nearest_value():
    """Beside ties, at the ends of the range, and at random; fractions say which value is the nearest."""
    chance, texts = random.Random(8), NEAR_TIES.split()
    for _ in range(300):
        bits = chance.randrange(0x7F7FFFFF)
        low, high = (Fraction(struct.unpack(">f", each.to_bytes(4, "big"))[0]) for each in (bits, bits + 1))
        tie, power = (low + high) / 2, 200
        digits = tie * 10**power
        assert digits.denominator == 1
        texts += [f"{digits.numerator + beside}e-{power}" for beside in (-1, 0, 1)] + [f"{chance.random()}e{chance.randrange(-50, 45)}"]
    for text in texts:
        for kind in CODES:
            expected = nearest_bits(kind, Fraction(text))
            for sign, above in (("", 0), ("+", 0), ("-", 1)):
                data = values.data_of(kind, sign + text, 1)
                whole = None if expected is None else expected | above << data_types.REALS[kind] - 1
                assert whole == (None if data is None else int.from_bytes(data, "little")), (kind, sign + text)


def test_what_is_no_decimal_number_gives_no_value():
    for text in NO_DECIMALS:
        assert all(values.data_of(kind, text, 1) is None for kind in CODES), text
    for text, number in (("5.", 5.0), (".5", 0.5), ("007", 7.0), ("1E+2", 100.0), ("-0", -0.0), ("0e99999999999999999999", 0.0), ("9" * 5000 + "e-5000", 1.0),
                         ("-1e-99999999999999999999", -0.0), ("1e0000000000000000000000002", 100.0)):
        for kind, code in CODES.items():
            assert values.data_of(kind, text, 1) == struct.pack(code, number), text


def test_a_real_is_shown_by_the_shortest_number_that_reads_back():
    """Of REAL64 that is Python's repr. Of REAL32 the last three are powers of two: the number that is nearest with eight digits reads
    back as none of them, and the one behind it does."""
    for number, text in ((2.5, "2.5"), (100.0, "100"), (-0.0, "-0"), (0.1, "0.1"), (16777216.0, "16777216"), (1e10, "10000000000"), (1e16, "1e+16"), (1e-5, "1e-05"),
                         (0.0001, "0.0001"), (1e-45, "1e-45"), (3.4028234663852886e38, "3.4028235e+38"), (2.0**-96, "1.2621775e-29"), (2.0**87, "1.5474251e+26"),
                         (2.0**90, "1.2379401e+27")):
        assert reals.text_of(REAL32, struct.pack("<f", number)) == text, number
    chance = random.Random(11)
    for _ in range(300):
        bits = chance.randrange(0x7F800000)
        data = bits.to_bytes(4, "little")
        text = reals.text_of(REAL32, data)
        assert nearest_bits(REAL32, Fraction(text)) == bits, text
        count = len(re.sub("e.*|[.]", "", text).strip("0"))
        number = struct.unpack("<f", data)[0]
        assert count == 1 or struct.pack("<f", float(f"{number:.{max(count - 2, 0)}e}")) != data, "a digit less would do"
        number = struct.unpack("<d", chance.randrange(0x7FF0000000000000).to_bytes(8, "little"))[0]
        assert reals.text_of(REAL64, struct.pack("<d", number)) == re.sub("[.]0$", "", repr(number))
    for kind, code in CODES.items():
        assert [reals.text_of(kind, struct.pack(code, float(each))) for each in ("inf", "-inf", "nan")] == ["inf", "-inf", "NaN"]
    assert reals.text_of(REAL32, bytes.fromhex("0100A0FF")) == "NaN", "whatever its sign and its other bits are"


def test_only_version_3_models_them():
    """By their codes in CiA 301; the others are those of every version."""
    old = {1, 2, 3, 4, 5, 6, 7, 9, 0x0A, 0x0F, 0x15, 0x1B}
    for version, new in ((1, set()), (2, set()), (3, {8, 0x10, 0x11, 0x12, 0x13, 0x14, 0x16, 0x18, 0x19, 0x1A})):
        assert {kind for kind in range(0x30) if data_types.is_modelled(kind, version)} == old | new
        sheet = device.Device([line.encode() for line in SCALE], version)
        assert [sheet.entries[index, 0].bits for index in range(0x2000, 0x2007)] == ([32, 64, 24, 40, 32, 64, 48] if version == 3 else [None] * 7)
        assert values.limits_of(sheet.entries[0x2000, 0], 5) == (None, None), "limits of a REAL aren't asked"
        assert values.limits_of(sheet.entries[0x2006, 0], 5) == (None, 100 if version == 3 else None)


# Commands.

def test_explain_shows_reals_as_decimal_numbers():
    status, text, faults = cobtool("explain", "--names", scales())
    said = [line[11:] for line in text.splitlines()]
    assert status == 0 and not faults
    for line in ("605 scale 2004h:00 Gain := 2.5", "605 scale 2005h:00 Offset segment 2: BF (-0.1)", "605 scale 2006h:00 Zero segment 1: FB FF FF FF FF FF",
                 "185 weight: 2000h Weight [kg]=2.5 2002h Turns=0", "185 weight: 2000h Weight [kg]=2.5 2002h Turns=-3",
                 "185 weight: 2000h Weight [kg]=-1e-45 2002h Turns=-3", "285 volume: 2001h Volume=0.1", "385 count: 2003h Count=123456789Ah"):
        assert line in said, line
    rows = list(csv.DictReader(io.StringIO(cobtool("explain", "--signals", "scales.txt")[1])))
    assert [(row["signal"], row["value"]) for row in rows if int(row["time_us"]) > 200_000] == [
        ("Weight [kg]", "2.5"), ("Turns", "0"), ("Volume", "0.1"), ("Weight [kg]", "2.5"), ("Turns", "-3"), ("Count", str(0x123456789A)),
        ("Weight [kg]", "-1e-45"), ("Turns", "-3")]


FOREIGN = b"(0000000001.%06d) can0 185#%s000000\n"


def test_explain_shows_what_a_frame_alone_can_bring():
    """Infinities and NaNs of a recording; and in version 2, where the types aren't modelled, bytes as before."""
    frames = ("0000807F", "000080FF", "0000C07F", "0100A0FF", "CDCCCC3D")
    put("run.log", b"".join(FOREIGN % (200_000 + 1000 * place, each.encode()) for place, each in enumerate(frames)))
    lines = cobtool("explain", "--log", "run.log", scales())[1].splitlines()
    assert [line[15:] for line in lines] == [f"weight: 2000h={text} 2002h=0" for text in ("inf", "-inf", "NaN", "NaN", "0.1")], lines
    cells = csv.DictReader(io.StringIO(cobtool("explain", "--signals", "--log", "run.log", "scales.txt")[1]))
    assert [row["value"] for row in cells if row["entry"] == "2000h"] == ["inf", "'-inf", "NaN", "NaN", "0.1"]
    lines = cobtool("explain", "--log", "run.log", scales(version=2, name="two.txt"))[1].splitlines()
    assert all(re.search(" 185 .*: [0-9A-F ]+$", line) for line in lines) and len(lines) == 5, lines


def test_matrix_has_their_types_and_values():
    rows = list(csv.reader(io.StringIO(cobtool("matrix", "--format", "csv", "--table", "signals", scales())[1])))
    assert [(row[0], row[3], row[6], row[9]) for row in rows[1:]] == [
        ("185h", "0-31", "REAL32", "2100h:00"), ("185h", "32-55", "INTEGER24", "2102h:00"), ("285h", "0-63", "REAL64", "2101h:00"), ("385h", "0-39", "UNSIGNED40", "-")]
    rows = list(csv.reader(io.StringIO(cobtool("matrix", "--format", "csv", "--table", "parameters", "scales.txt")[1])))
    assert [row[2:] for row in rows[1:]] == [["2004h:00", "Gain", "2.5", "1"], ["2005h:00", "Offset", "-0.1", "0"], ["2006h:00", "Zero", "-5", "0"]]


def test_check_warns_of_a_real_outside_its_limits():
    """cobench doesn't ask the limits of a REAL: 2.5 is above 2; -0.1 is the LowLimit itself, and an INTEGER48 is within its own."""
    status, text, _ = cobtool("check", "--allow", "no-sink", scales())
    limit, line = (number for number, each in enumerate(open("scales.txt"), 1) if each in ("HighLimit=2\n", "param 5 2004 0 2.5\n"))
    assert status == 0 and text.splitlines()[:-1] == [
        f"scales.txt:{line}: warning: node 5 scale: 2004h:00 Gain: 2.5 is above the HighLimit 2 (scales.txt:{limit}), which cobench doesn't ask of REAL32: "
        "the device may refuse it [real-limits]"], text
    assert "real-limits" not in cobtool("check", "--allow", "real-limits 5 2004 00", "scales.txt")[1]
    for value, said in (("0.5", ""), ("2", ""), ("0.49999", "below the LowLimit 0.5"), ("0.49999999", ""), ("2.0000002", "above the HighLimit 2"), ("-1e30", "below")):
        text = cobtool("check", scales(changes=[("param 5 2004 0 2.5", f"param 5 2004 0 {value}")]))[1]
        assert (said in text if said else "real-limits" not in text), (value, text)
    found = json.loads(cobtool("check", "--json", scales(changes=[("param 5 2006 0 -5", "param 5 2006 0 101")]))[1])["findings"]
    assert "E03 param 5 2006 00" in [each["words"] for each in found], "those of an integer are asked by cobench"


def test_check_says_why_a_text_is_no_real():
    causes = {"0x10": "a number is decimal, with a point and a power of ten or without, as 2.5, -4 and 1e-3",
              "-3.5e38": "the numbers of that type are up to 3.4028235e+38, and down to -3.4028235e+38"}
    for text, cause in causes.items():
        output = cobtool("check", scales(changes=[("param 5 2004 0 2.5", f"param 5 2004 0 {text}")]))[1]
        assert f'2004h:00 Gain: "{text}" is no REAL32: {cause}' in output, output


def test_check_says_which_types_meet_in_no_pdo():
    """A sink of 32 bits takes no REAL32, unless it is one; one of INTEGER24 isn't as wide."""
    for sink, why in (("2103", "2103h:00 Bits, is UNSIGNED32, and source 1, 2000h:00 Weight [kg], is REAL32"),
                      ("2102", "2102h:00 Shown turns, has 24 bits, and source 1, 2000h:00 Weight [kg], has 32")):
        output = cobtool("check", scales(changes=[("sink weight 1 6 2100 0", f"sink weight 1 6 {sink} 0")]))[1]
        assert f"error: message weight: sink 1 of node 6 panel, {why} [E09]" in output, output
    output = cobtool("check", scales(changes=[("sink weight 2 6 2102 0\n", "")]))[1]
    assert "there is no dummy of 24 bits to skip it" in output, output


def test_check_in_version_2_says_what_it_said():
    lines = cobtool("check", scales(version=2))[1].splitlines()
    assert sum("its type isn't modelled" in line and line.endswith("[E16]") for line in lines) == 8 and "REAL32 [E16]" in "\n".join(lines)
    assert not [line for line in lines if "real-limits" in line or "[E09]" in line or "[E03]" in line]


def test_faults_of_sheets_are_those_of_the_version():
    """A default outside the limits of its entry, and limits that contradict one another."""
    lines = (b"[2000] DataType=8 LowLimit=1e3 HighLimit=1 [2001] DataType=0x11 HighLimit=0.5 DefaultValue=0.6 "
             b"[2002] DataType=0x16 LowLimit=5 DefaultValue=4").split()
    found = [[(each.line, each.kind, each.text) for each in sheet_faults.faults_of(device.Device(lines, version), lines)] for version in (2, 3)]
    assert found == [[], [(4, "limits", "HighLimit 1 is below LowLimit 1e3"), (8, "default", "DefaultValue 0.6 is above the HighLimit 0.5"),
                          (12, "default", "DefaultValue 4 is below the LowLimit 5")]], found


def test_diff_shows_their_values():
    scales(name="new.txt", changes=[("param 5 2004 0 2.5", "param 5 2004 0 1.5"), ("param 5 2006 0 -5\n", "")])
    status, text, _ = cobtool("diff", scales(), "new.txt")
    assert status == 1 and "\n    2004h:00 Gain: 2.5 -> 1.5\n    2006h:00 Zero: -5 -> default 0\n" in text, text


def log_of(*changes):
    """The planned run as a log, with these texts replaced by others."""
    text = cobtool("candump", "scales.txt")[1]
    for old, new in changes:
        assert old in text, old
        text = text.replace(old, new)
    return put("run.log", text.encode())


def test_conform_compares_bytes_and_prints_numbers():
    """00 00 20 41 is 10, 00 00 30 40 is 2.75; 80 00 00 00 in the place of 00 00 00 00 is -0, which is another value too."""
    scales()
    assert cobtool("conform", "--values", "scales.txt", log_of())[1].startswith("no errors, no warnings; ")
    text = cobtool("conform", "--values", "scales.txt", log_of(("605#2304200000002040", "605#2304200000003040"), ("185#00002040000000", "185#00002041000000")))[1]
    assert "node 5 scale: 2004h:00 Gain := 2.75, and 2.5 is planned" in text and text.count(": error: ") == 2, text
    assert "185h: it has 00 00 20 41 00 00 00, and 00 00 20 40 00 00 00 is planned; 2000h:00 Weight [kg] is 10, and 2.5 is planned (" in text, text
    text = cobtool("conform", "--values", "scales.txt", log_of(("285#9A9999999999B93F", "285#000000000000F07F")))[1]
    assert "; 2001h:00 Volume is inf, and 0.1 is planned (" in text, text


def test_load_counts_their_bytes():
    rows = list(csv.DictReader(io.StringIO(cobtool("load", "--format", "csv", scales())[1].split("\n\n")[0])))
    found = {row["Frames"]: row["Bytes"] for row in rows if row["Frames"] in ("weight", "volume", "count")}
    assert found == {"weight": "7", "volume": "8", "count": "5"}, rows


def test_export_writes_their_exact_values():
    """In the concise DCF little-endian bytes, in the DCF the exact decimal numbers: those of fractions."""
    assert cobtool("export", "made", scales())[0] == 0
    lines = open("made/5_scale.dcf").read().splitlines()
    exact = Fraction(0.1)
    digits = str(exact.numerator * 10**60 // exact.denominator).rjust(61, "0").rstrip("0")
    assert "ParameterValue=2.5" in lines and f"ParameterValue=-0.{digits[1:]}" in lines and "ParameterValue=-5" in lines, lines
    data = open("made/5_scale.bin", "rb").read()
    for index, value in ((0x2004, struct.pack("<f", 2.5)), (0x2005, struct.pack("<d", -0.1)), (0x2006, (-5).to_bytes(6, "little", signed=True))):
        assert struct.pack("<HBI", index, 0, len(value)) + value in data, index
    status, made, faults = run("import", "made/5_scale.dcf", "made/6_panel.dcf")
    assert status == 0 and not faults and b"\nversion 3\n" in made, (made, faults)
    put("made.txt", made)
    assert cobtool("export", "again", "made.txt")[0] == 0
    assert open("again/5_scale.bin", "rb").read() == data


def test_timeline_says_which_values_are_reals():
    text = cobtool("timeline", scales())[1]
    assert '["weight",[["2000h Weight [kg]",32,"real"],["2002h Turns",24,"signed"]]]' in text.replace(", ", ","), "its parts"
    assert picture.form_of(REAL32, 32) == picture.form_of(REAL64, 64) == "real" and picture.form_of(REAL64, 32) == picture.form_of(0, 32) == "unsigned"


def test_a_mapping_of_another_width_has_no_real():
    """A device may map 16 bits of a REAL32: they are bytes."""
    assert device.value_at(b"\x00\x00\x20\x40", 16, 16, REAL32) == "4020h" and device.value_at(b"\x00\x00\x20\x40", 0, 32, REAL32) == "2.5"
    assert device.decimal_at(b"\x00\x00\x20\x40", 16, 16, REAL32) == str(0x4020)


# What is told of a script that is kept open, of a device on the bus, and of data sheets.

def answered(name="scales.txt"):
    """The session of a script."""
    return session.run(name, recorded(), Evidence.QUERIES)


def test_a_save_with_another_version_reads_the_sheets_anew():
    """As a live page and an editor keep them: those of one version aren't those of another, though their lines are the same."""
    scales()
    scales(version=2, name="two.txt")
    kept = Answers()
    bits = [kept.evidence(answered(name)).sheet("scale").entries[0x2000, 0].bits for name in ("scales.txt", "two.txt", "two.txt", "scales.txt")]
    assert bits == [32, None, None, 32]
    sheets = [dict(kept.sheets) for _ in range(2) if kept.evidence(answered())]
    assert sheets[0] == sheets[1], "and without a change they stay"
    words = [run_words(answered(name).project, kept.sheets, {}) for name in ("scales.txt", "two.txt")]
    assert words[0] != words[1], "the page draws its frames anew"


def test_an_editor_is_told_of_them():
    """Objects with their types, limits and values; the bits of a message; and what a sink may be."""
    scales()
    made = answered()
    evidence = Evidence(made)
    said = entries.described(evidence, 5, (0x2004, 0)).replace("  \n", "\n").split("\n")
    assert said[2:] == ["REAL32, rw", "limits: 0.5 to 2", "default: 1", "PDO: sent and taken", "at node 5 scale once it is configured: 2.5"], said
    state = SimpleNamespace(evidence=evidence, project=made.project)
    table = hover.layout(made.project.messages["weight"], state)
    assert "| 0 to 31 | 2000h:00 Weight" in table and "| 32 to 55 | 2002h:00 Turns | panel 2102h:00 |" in table, table
    panel, weight = evidence.sheet("panel").entries, evidence.sheet("scale").entries[0x2000, 0]
    assert [index for index in (0x2100, 0x2101, 0x2102, 0x2103) if completion.can_meet(weight, panel[index, 0])] == [0x2100]


def test_values_on_the_bus_are_read_and_written_as_they_are():
    """Exactly: 16777217 and a little more is nearer to 16777218. What no DCF can have is told as it is, and has no text there."""
    assert bus_value.data_of(REAL32, "16777217.00000000000000000000000001", 1) == struct.pack("<f", 16777218.0)
    assert bus_value.data_of(0x10, "-2", 1) == b"\xFE\xFF\xFF" and bus_value.kind_of("unsigned56") == 0x1A
    for data, text, in_sheet in (("0000807F", "inf", None), ("0000C07F", "NaN", None), ("CDCCCC3D", "0.1", "0.1"), ("00000080", "-0", "-0"),
                                 ("000000", "00 00 00", None)):
        assert (bus_value.text_of(REAL32, bytes.fromhex(data)), bus_value.sheet_text(REAL32, bytes.fromhex(data))) == (text, in_sheet)
    assert bus_value.text_of(0x16, b"\x01\x02\x03") == "197121 (30201h)" and bus_value.sheet_text(0x16, b"\x01\x02\x03") == "0x030201"
    assert "at most 3.4028235e+38" in bus_value.why_none(REAL32, "inf")


def test_the_boot_compares_an_unsigned24_in_version_3():
    """It is one of the unsigned types of at most four bytes; an UNSIGNED40 has five."""
    lines = (b"[1018sub1] DataType=0x16 DefaultValue=0x29C [1018sub2] DataType=0x18 DefaultValue=7 "
             b"[1018sub3] DataType=5 DefaultValue=8").split()
    for version, vendor in ((2, 0), (3, 0x29C)):
        found = identity.expected(device.Device(lines, version), 5)
        assert [found[0x1018, sub] for sub in (1, 2, 3)] == [vendor, 0, 8], version


def test_start_asks_for_version_3_where_a_pdo_has_them():
    """A REAL32 goes to a REAL32 alone, and no 32 bits of another type."""
    on = ("[1800sub1] DataType=7 DefaultValue=$NODEID+0x180 [1800sub2] DataType=5 DefaultValue=255 "
          "[1A00sub0] DataType=5 DefaultValue=1 [1A00sub1] DataType=7").split()
    weight = [*on, "DefaultValue=0x20000020", "[2000]", "ParameterName=Weight", "DataType=8", "AccessType=ro", "PDOMapping=1"]
    put("scale.eds", "\n".join(weight).encode())
    put("panel.eds", "\n".join(row for row in PANEL if "0x80000000" not in row).encode())
    put("other.eds", "\n".join(row for row in PANEL if row != "DataType=0x0008" and "0x80000000" not in row).encode())
    text = run("start", "scale.eds", "panel.eds")[1].decode()
    assert "\nversion 3\n" in text and text.endswith("# source scale_1 1 2000 0\n# sink scale_1 1 2 2100 0\n"), text
    text = run("start", "scale.eds", "other.eds")[1].decode()
    assert "\nversion 3\n" in text and text.endswith("# source scale_1 1 2000 0\n"), text
    put("scale.eds", "\n".join(weight).replace("DataType=8", "DataType=7").encode())
    text = run("start", "scale.eds", "panel.eds")[1].decode()
    assert "\nversion 2\n" in text and text.endswith("# sink scale_1 1 2 2103 0\n"), text
