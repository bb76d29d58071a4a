"""Names of receivers beside those of senders that say nothing: in `explain`, in the DBC, on the page of the matrix."""
from helper import example, recorded, run

from cobench_tools.receiver_names import beside, says_nothing

NETWORK = example("network.txt")


def output(*words):
    status, text, faults = run(*words)
    assert status == 0, faults
    return text.decode("cp1252" if words[0] == "dbc" else "utf-8")


def test_which_names_say_nothing():
    for name in ("Out_i32_1", "Out_u16 1", "Digital inputs 1"[8:], "Variable 7", "", "PDO data word 3", "REAL output"):
        assert says_nothing(0x2000, name), name
    for name in ("Controlword", "Target position [inc]", "Read input 8-bit", "Bus voltage", "x_axis"):
        assert not says_nothing(0x2000, name), name
    assert says_nothing(0xA580, "Winder speed") and says_nothing(0xAFFF, "Speed") and not says_nothing(0xB000, "Speed")


def test_names_of_several_receivers():
    assert beside([]) == "" and beside([("a", "")]) == ""
    assert beside([("a", "Speed"), ("b", "Torque"), ("c", "Speed")]) == "Speed of a, c, Torque of b"
    assert beside((node, "Speed") for node in "abcd") == "Speed of a, b and 2 more"


def test_explain_names_them():
    lines = output("explain", "--names", "--cobench", recorded(), NETWORK).splitlines()
    assert ("0000170520 18A control: A580h:01 Out_u16 1 (Controlword of winder)=000Fh A640h:01 Out_i32 1 (Target position [inc] of "
            "winder)=100000") in lines
    assert not any("inputs: 6000h:01" in line and "(" in line for line in lines), "the sender's name says enough"
    assert "0000170520 18A control: A580h:01=000Fh A640h:01=100000" in output("explain", "--cobench", recorded(), NETWORK).splitlines()
    rows = output("explain", "--signals", "--cobench", recorded(), NETWORK).splitlines()
    assert "170520,18A,10,plc,control,A640h:01,Out_i32 1 (Target position [inc] of winder),100000" in rows


def test_the_dbc_names_them_where_that_is_asked_for():
    signals = [line.split()[1] for line in output("dbc", "--names", "receiver", "--cobench", recorded(), NETWORK).splitlines()
               if line.startswith(" SG_")]
    before = [line.split()[1] for line in output("dbc", "--cobench", recorded(), NETWORK).splitlines() if line.startswith(" SG_")]
    changed = {old: new for old, new in zip(before, signals) if old != new}
    assert len(signals) == len(before) and changed == {
        "Out_u16_1": "Controlword_of_winder", "Out_i32_1": "Target_position_inc_of_winder", "Out_u8_1": "Write_output_8_bit_Outputs_1_to"}


def test_the_page_of_the_matrix_names_them():
    page = output("matrix", "--format", "html", "--cobench", recorded(), NETWORK)
    assert '<td colspan="16" title="0-15: Out_u16 1 (Controlword of winder)">1 Controlword of winder</td>' in page


def test_the_timeline_names_them():
    page = output("timeline", "--cobench", recorded(), NETWORK)
    assert "A640h:01 Out_i32 1 (Target position [inc] of winder)" in page
