"""`import`: files as other tools write them, and the round trip: exported files imported give the same concise DCFs."""
import os
import re
import struct

import networks
from cobench_tools.concise import values_of
from helper import (BINARY, answers, example, in_parallel, is_fine, is_refused, kept, kept_at, put, real, recorded, recorded_replies,
                    run)

MACHINE = ["plc.dcf", "axis_1.dcf", "axis_2.dcf", "valve.dcf"]
DCF = b"[1017]\nDataType=6\nDefaultValue=0\n%s[DeviceComissioning]\nNodeID=5\nNodeName=pump\nBaudrate=500\n"


def nodes_of(text):
    """The nodes of a script, with their names."""
    return {int(node): name.decode() for node, name in re.findall(rb"(?m)^node +(\d+) +(\w+) ", text)}


def files_of(program, text):
    """Writes the DCFs of a script; their names, and the concise DCFs."""
    nodes, paths = nodes_of(text), []
    lines = answers(program, text, b"".join(b"dcf %d\ncdcf %d\n" % (node, node) for node in nodes))
    for (node, name), dcf in zip(nodes.items(), lines[::2]):
        paths.append(put(f"{node}_{name}.dcf", b"".join(line + b"\n" for line in dcf)))
    return paths, lines[1::2]


def round_trip(program, text):
    """What is wrong with the script that is made of a script's DCFs, or None."""
    paths, concise = files_of(program, text)
    status, made, faults = run("import", *paths)
    if status or faults:
        return f"status {status}: {faults}"
    put("made.txt", made)
    status, again, faults = run("expand", "made.txt")
    if nodes_of(again) != nodes_of(text):
        return f"other nodes: {nodes_of(again)}"
    asked = b"".join(b"cdcf %d\n" % node for node in nodes_of(text))
    return None if answers(program, again, asked) == concise else "other concise DCFs"


def edits_of(name):
    """An example as cobench takes it, without its queries."""
    return re.sub(rb"(?m)^(dcf|cdcf|diag|trace|project)( \d+)?\n", b"", run("expand", example(name))[1])


def test_import_gives_the_examples_again():
    for name in ("first_network.txt", "io_modules.txt", "servo_axes.txt"):
        assert round_trip(recorded(), edits_of(name)) is None, name


def test_import_gives_generated_networks_again():
    for seed in (4, 10, 13):
        assert round_trip(recorded(), networks.network(seed)) is None, seed


def test_import_gives_networks_of_version_3_again():
    for seed in (4, 10, 13):
        text = b"version 3\n" + re.sub(rb"(?m)^version .*\n", b"", networks.network(seed))
        assert round_trip(recorded(), text) is None, seed


def generated_round_trip(seed):
    return round_trip(real(), networks.network(seed))


def all_import_gives_200_networks_again():
    real()
    wrong = {seed: why for seed, why in enumerate(in_parallel(generated_round_trip, list(range(200)))) if why}
    assert not wrong, wrong


def test_import_of_pdos_that_a_sheet_has_on():
    """In version 3 what no message uses is off: a TPDO that is on by the sheet becomes a message, an RPDO that nobody serves is noted."""
    sheet = ("[1400sub1]\nDataType=7\nDefaultValue=0x207\n[1400sub2]\nDataType=5\nDefaultValue=255\n[1600sub0]\nDataType=5\n"
             "DefaultValue=1\n[1600sub1]\nDataType=7\nDefaultValue=0x20010008\n[1800sub1]\nDataType=7\nDefaultValue=0x185\n"
             "[1800sub2]\nDataType=5\nDefaultValue=255\n[1A00sub0]\nDataType=5\nDefaultValue=1\n[1A00sub1]\nDataType=7\n"
             "DefaultValue=0x20000008\n[1801sub1]\nDataType=7\nDefaultValue=0x285\nParameterValue=0x80000285\n[1801sub2]\nDataType=5\n"
             "[1A01sub0]\nDataType=5\nDefaultValue=1\n[1A01sub1]\nDataType=7\nDefaultValue=0x20000008\n[2000]\nDataType=5\nPDOMapping=1\n"
             "[2001]\nDataType=5\nPDOMapping=1\nAccessType=rww\n[DeviceComissioning]\nNodeID=5\nNodeName=io\n")
    status, made, faults = run("import", put("io.dcf", sheet.encode()))
    assert status == 0 and b"\nversion 3\n" in made and b"\nmessage io_1 5 1 255 0 0 185\nsource io_1 1 2000 0\n" in made, made
    assert faults == "io.dcf:3: note: on by the data sheet, and off by the script, as no message uses it: RPDO 1\n", faults
    put("io.dcf", sheet.replace("ParameterValue=0x80000285\n", "").encode())
    status, made, faults = run("import", "io.dcf")
    assert (status, faults) == (0, "") and b"version" not in made, "nothing is lost by version 1, where the PDOs stay as they are"


def test_import_of_a_machine():
    os.chdir(kept_at("import"))
    status, output, faults = run("import", "--manager", "0", *MACHINE)
    assert status == 0 and output == kept("import/machine.txt"), output
    assert faults.encode() == kept("import/told.txt"), faults


def test_import_of_a_machine_with_its_manager():
    """Its controller says CANopenManager=1, which is no loss then; by version 3 the mapping of the valves serves as it is."""
    os.chdir(kept_at("import"))
    status, output, faults = run("import", *MACHINE)
    assert status == 0 and b"\nversion 3\nbitrate 500\nmanager 1 10000 0 500\n" in output, output
    assert b"\n# the manager runs in it (CANopenManager, 1005h)\nnode 1 PLC drive_v2\n" in output and b"\nsource Valves_1_8_2 1 6000 1\n" in output
    assert b"\nparam 1 1005 0 0x40000080\nparam 1 1006 0 10000\n" in output, "no value of it is lost"
    assert "CANopenManager" not in faults and "SYNC" not in faults, faults


def test_import_puts_data_sheets_into_a_folder():
    os.symlink(kept_at("import"), "import")
    words = [os.path.join("import", name) for name in MACHINE]
    inline, told = run("import", *words)[1:]
    status, output, faults = run("import", "--sheets", "sheets", *words)
    assert status == 0 and faults == told and sorted(os.listdir("sheets")) == ["Valve_terminal_8.eds", "drive_v2.eds", "drive_v2_2.eds"]
    assert b"\neds drive_v2 <sheets/drive_v2.eds\n" in output and b"[1017]" not in output
    put("machine.txt", output)
    put("inline.txt", inline)
    is_fine(run("expand", "machine.txt"), run("expand", "inline.txt")[1])
    assert run("import", "--sheets", "sheets", *words)[:2] == (0, output)
    put("sheets/drive_v2.eds", b"[1017]\n")
    is_refused(run("import", "--sheets", "sheets", *words), "sheets/drive_v2.eds: it is there already, and says something else")
    put("folder", b"")
    is_refused(run("import", "--sheets", "folder", *words), "folder: ")


def test_import_leaves_out_values_of_the_default():
    put("5.dcf", DCF % b"ParameterValue=0x0\n")
    assert b"\nparam 5 1017 0 0x0\n" in run("import", "5.dcf")[1], "a file as cobench prints it"
    put("5.dcf", b"\n" + DCF % b"ParameterValue=0x0\n")
    status, output, faults = run("import", "5.dcf")
    assert status == 0 and b"param" not in output and "5.dcf:5: note: no parameter is needed" in faults
    assert b"\nparam 5 1017 0 0x0\n" in run("import", "--all", "5.dcf")[1]


def test_import_takes_names_that_a_script_can_have():
    for name, expected in ((b"NodeName=Pump (left)", b"Pump_left"), (b"NodeName=\xc4\xc4", b"the_file"), (b"", b"the_file"),
                           (b"NodeName=" + b"x" * 40, b"x" * 32)):
        put("the file.dcf", b"[2000]\nDataType=5\n[DeviceCommissioning]\nNodeID=0x7F\n" + name)
        status, output, faults = run("import", "the file.dcf")
        assert status == 0 and b"\nnode 127 " + expected + b" " + expected + b"\n" in output, output
        assert b"\nmanager 126 0 0 500\n" in output


def one_byte_pdo(index, cob):
    """The sections of a PDO that carries 2000h:00 with that COB-ID."""
    return (f"[{index:X}sub1]\nDataType=7\nDefaultValue=0x80000000\nParameterValue=0x{cob:X}\n[{index:X}sub2]\nDataType=5\n"
            f"DefaultValue=255\n[{index + 0x200:X}sub0]\nDataType=5\nParameterValue=1\n[{index + 0x200:X}sub1]\nDataType=7\n"
            "ParameterValue=0x20000008\n")


def node_file(name, node, pdos):
    """Writes a DCF with these PDOs and the entry that they carry."""
    entries = f"[2000]\nDataType=5\nPDOMapping=1\n[DeviceComissioning]\nNodeID={node}\nNodeName={name}\n"
    return put(f"{name}.dcf", ("".join(one_byte_pdo(*pdo) for pdo in pdos) + entries).encode())


def messages_with_rpdos(first, second):
    """The messages that are made where node b takes 190h and 191h, the two of node a, by its RPDO 1 and 2 in that order."""
    sender = node_file("a", 1, [(0x1800, 0x40000190), (0x1801, 0x40000191)])
    status, output, faults = run("import", sender, node_file("b", 2, [(0x1400, first), (0x1401, second)]))
    assert status == 0 and not faults, faults
    return re.findall(rb"(?m)^message (.*)", output)


def test_import_gives_each_receiver_its_rpdo():
    assert messages_with_rpdos(0x190, 0x191) == [b"a_1 1 1 255 0 0 190", b"a_2 1 2 255 0 0 191"]
    assert messages_with_rpdos(0x191, 0x190) == [b"m1_a_2 1 2 255 0 0 191", b"m2_a_1 1 1 255 0 0 190"]


def axis(pdos):
    """Writes the DCF of an axis whose data sheet has RPDO 2 on with 300h + node at once, and RPDO 1 off."""
    sheet = ("[1400sub1]\nDataType=7\nDefaultValue=0x80000205\n{0}[1400sub2]\nDataType=5\nDefaultValue=255\n"
             "[1600sub0]\nDataType=5\n[1600sub1]\nDataType=7\n"
             "[1401sub1]\nDataType=7\nDefaultValue=$NODEID+0x300\n{1}[1401sub2]\nDataType=5\nDefaultValue=255\n{2}"
             "[1601sub0]\nDataType=5\nDefaultValue=1\n[1601sub1]\nDataType=7\nDefaultValue=0x60400010\n"
             "[6040]\nDataType=6\nAccessType=rww\nPDOMapping=1\n[DeviceComissioning]\nNodeID=5\nNodeName=axis5\n")
    return put("axis5.dcf", sheet.format(*pdos).encode())


def plc_305():
    """Writes the DCF of a controller that sends 305h at each SYNC."""
    return put("plc.dcf", b"[1800sub1]\nDataType=7\nDefaultValue=0x80000000\nParameterValue=0x40000305\n[1800sub2]\nDataType=5\n"
               b"ParameterValue=1\n[1A00sub0]\nDataType=5\nParameterValue=1\n[1A00sub1]\nDataType=7\nParameterValue=0x20000010\n"
               b"[2000]\nDataType=6\nPDOMapping=1\n[DeviceComissioning]\nNodeID=10\nNodeName=plc\n")


def test_import_names_the_rpdo_that_a_file_has():
    """The file has RPDO 2 at SYNC, where version 2 would give the message RPDO 1, and RPDO 2 would stay on by its default."""
    status, made, faults = run("import", plc_305(), axis(("", "ParameterValue=0x305\n", "ParameterValue=1\n")))
    assert (status, faults) == (0, "") and b"\nversion 3\n" in made and b"\nreceive plc_1 5 2 0\n" in made, (made, faults)
    put("made.txt", made)
    assert b" axis5 (RPDO 2)\n" in run("matrix", "--table", "messages", "--cobench", recorded(), "made.txt")[1]
    assert run("check", "--cobench", recorded(), "made.txt")[0] == 0


def test_check_says_what_comes_of_an_rpdo_that_stays_on():
    made = run("import", plc_305(), axis(("", "ParameterValue=0x305\n", "ParameterValue=1\n")))[1]
    put("made.txt", re.sub(rb"(?m)^(version|receive) .*\n", b"", made))
    assert b"axis5 (RPDO 1), axis5 (RPDO 2)" in run("matrix", "--table", "messages", "--cobench", recorded(), "made.txt")[1]
    output = run("check", "--cobench", recorded(), "made.txt")[1].decode()
    assert ": warning: node 5 axis5: it takes 305h twice: by RPDO 1 at SYNC, by RPDO 2 at once [taken-twice]\n" in output, output
    assert "[taken-twice]" not in run("check", "--cobench", recorded(), "--allow", "taken-twice 5 305", "made.txt")[1].decode()
    faults = run("import", plc_305(), axis(("ParameterValue=0x305\n", "", "")))[2]
    assert "twice" not in faults, "the file has both on with 305h itself, RPDO 1 at once too: " + faults


def test_import_says_nothing_of_types_that_come_to_the_same():
    """By CiA 301 an RPDO of any type from 0 to 240 waits for the next SYNC; the script gives 0."""
    for kind, said in ((0, False), (1, False), (240, False), (254, True)):
        pdos = "ParameterValue=0x305\n", "ParameterValue=0x80000305\n", ""
        text = axis(pdos).encode() and open("axis5.dcf").read().replace("[1600sub0]", f"ParameterValue={kind}\n[1600sub0]")
        put("axis5.dcf", text.replace("[1600sub0]\nDataType=5\n[1600sub1]\nDataType=7\n", "[1600sub0]\nDataType=5\nParameterValue=1\n"
                                      "[1600sub1]\nDataType=7\nParameterValue=0x60400010\n").encode())
        faults = run("import", plc_305(), "axis5.dcf")[2]
        assert ("1400h:02" in faults) == said, (kind, faults)


def test_import_keeps_what_it_does_not_model_in_the_data_sheet():
    for node, gain in ((1, b"2.5"), (2, b"2.5"), (3, b"3.5"), (4, b"")):
        value = b"ParameterValue=" + gain + b"\n" if gain else b""
        put(f"{node}.dcf", b"[2000]\nDataType=0x0B\nDefaultValue=1.5\n%s[2001]\nDataType=6\nParameterValue=%d\n"
            b"[DeviceComissioning]\nNodeID=%d\nNodeName=n%d\n" % (value, node, node, node))
    status, output, faults = run("import", "1.dcf", "2.dcf", "3.dcf", "4.dcf")
    assert status == 0 and output.count(b"\neds ") == 3 and output.count(b"ParameterValue=2.5") == 1, output
    assert b"\nnode 1 n1 n1\n" in output and b"\nnode 2 n2 n1\n" in output and b"\nnode 3 n3 n3\n" in output
    assert faults.splitlines() == [
        f"{node}.dcf:4: warning: kept in the data sheet, and so in the DCF (E16), but not written, as of UNICODE_STRING, a data type that "
        "cobench doesn't write: 2000h:00 (line 4)" for node in (1, 2, 3)], faults
    put("made.txt", output)
    put("asked.txt", output + b"dcf 3\n")
    lines = recorded_replies(run("expand", "asked.txt")[1]).splitlines()
    assert b"ParameterValue=3.5" in lines and b"ParameterValue=0x0003" in lines, lines


# Values of types that version 3 has besides: each with its bytes, as written in a concise DCF.
VALUES_OF_VERSION_3 = (("0x08", "2.5", struct.pack("<f", 2.5)), ("8", "-1e-3", struct.pack("<f", -0.001)), ("0x11", "0.1", struct.pack("<d", 0.1)),
                       ("0x10", "-3", b"\xFD\xFF\xFF"), ("0x16", "0x123456", b"\x56\x34\x12"), ("0x1A", "$NODEID", b"\x05\0\0\0\0\0\0"))


def dcf_of_version_3(values=VALUES_OF_VERSION_3, more=""):
    """Writes the DCF of node 5 with these values at 2000h and on."""
    sections = "".join(f"[{0x2000 + place:X}]\nDataType={kind}\nParameterValue={text}\n" for place, (kind, text, _) in enumerate(values))
    return put("5.dcf", f"{sections}{more}[DeviceComissioning]\nNodeID=5\nNodeName=scale\n".encode())


def test_import_sets_values_of_version_3():
    """Their texts stand in `param`, which cobench reads back to the same bytes, and nothing is to be warned of."""
    status, output, faults = run("import", dcf_of_version_3())
    params = "".join(f"param 5 {0x2000 + place:X} 0 {text}\n" for place, (_, text, _) in enumerate(VALUES_OF_VERSION_3)).encode()
    assert (status, faults) == (0, "") and b"\nversion 3\n" in output and output.endswith(params), (output, faults)
    asked = answers(recorded(), output, b"cdcf 5\n")[0]
    found = values_of(asked)
    assert [found[0x2000 + place, 0] for place in range(len(VALUES_OF_VERSION_3))] == [data for _, _, data in VALUES_OF_VERSION_3], found


def test_import_has_version_3_only_where_less_is_lost_so():
    """A number of another tool's spelling is no value: then the data sheet keeps it, as in version 1."""
    for text in ("0x40200000", "2,5", "NaN", "1e39"):
        status, output, faults = run("import", dcf_of_version_3([("8", text, None)]))
        assert status == 0 and b"version" not in output and f"ParameterValue={text}\n".encode() in output, output
        assert faults.startswith("5.dcf:3: warning: kept in the data sheet, and so in the DCF (E16), but not written, as of REAL32"), faults
    status, output, faults = run("import", dcf_of_version_3([("8", "2.5", None), ("8", "2,5", None)]))
    assert status == 0 and b"\nversion 3\n" in output and b"\nparam 5 2000 0 2.5\n" in output, output
    assert faults == "5.dcf:6: warning: not taken over, as no value of REAL32: 2001h:00 (line 6)\n", faults


def test_import_compares_values_of_version_3_with_their_defaults():
    """2.50 is the default 2.5, and -0 isn't 0; limits of a REAL aren't asked."""
    more = ("[2100]\nDataType=8\nDefaultValue=2.5\nParameterValue=2.50\n[2101]\nDataType=8\nDefaultValue=0\nParameterValue=-0\n"
            "[2102]\nDataType=8\nHighLimit=1.5\nParameterValue=2\n[2103]\nDataType=0x10\nHighLimit=8388606\nParameterValue=8388607\n")
    put("5.dcf", f"; \n{more}[DeviceComissioning]\nNodeID=5\nNodeName=scale\n".encode())
    status, output, faults = run("import", "5.dcf")
    assert status == 0 and output.endswith(b"\nnode 5 scale scale\nparam 5 2101 0 -0\nparam 5 2102 0 2\n"), output
    assert faults.splitlines() == ["5.dcf:5: note: no parameter is needed for the default's value (--all makes one): 2100h:00 (line 5)",
                                   "5.dcf:17: warning: not taken over, as beyond the limits of the data sheet: 2103h:00 (line 17)"], faults


def test_import_makes_messages_of_version_3():
    """A TPDO that maps a REAL32 and an UNSIGNED24 has no message in version 2."""
    pdo = ("[1800sub1]\nDataType=7\nDefaultValue=0x80000000\nParameterValue=0x40000185\n[1800sub2]\nDataType=5\nDefaultValue=255\n[1A00sub0]\nDataType=5\n"
           "ParameterValue=2\n[1A00sub1]\nDataType=7\nParameterValue=0x21000020\n[1A00sub2]\nDataType=7\nParameterValue=0x21010018\n"
           "[2100]\nDataType=8\nPDOMapping=1\nAccessType=ro\n[2101]\nDataType=0x16\nPDOMapping=1\nAccessType=ro\n")
    status, output, faults = run("import", dcf_of_version_3((), pdo))
    assert (status, faults) == (0, "") and b"\nversion 3\n" in output, (output, faults)
    assert output.endswith(b"\nmessage scale_1 5 1 255 0 0 185\nsource scale_1 1 2100 0\nsource scale_1 2 2101 0\n"), output


def test_import_names_what_it_drops_of_the_commissioning():
    put("5.dcf", DCF % b"" + b"NetNumber=2\nNetworkName=\nCANopenManager=0\nLSS_SerialNumber=0x12\nOther=x\n")
    assert run("import", "5.dcf")[2] == (
        "5.dcf:8: warning: the script has no word for what the commissioning section says besides: NetNumber=2 (line 8), "
        "LSS_SerialNumber=0x12 (line 11), other=x (line 12)\n")
    put("5.dcf", DCF % b"" + b"CANopenManager=1\n")
    assert run("import", "--manager", "0", "5.dcf")[2].endswith("besides: CANopenManager=1 (line 8)\n")


def test_import_says_what_no_start_value_can_say():
    put("a.dcf", (one_byte_pdo(0x1800, 0x40000190) + "[1800sub6]\nDataType=5\nParameterValue=250\n[2000]\nDataType=5\nPDOMapping=1\n"
                  "[DeviceComissioning]\nNodeID=1\n").encode())
    status, output, faults = run("import", "a.dcf")
    assert status == 0 and b"start" not in output and "a.dcf:16: warning: TPDO 1: 1800h:06 is FAh here, and 0h by the script" in faults


def test_import_on_bad_input():
    put("binary", BINARY)
    put("utf16.dcf", "[1017]\r\n".encode("utf-16"))
    put("sheet.eds", b"[1017]\nDataType=6\n")
    put("5.dcf", DCF % b"")
    put("other.dcf", DCF % b"ParameterValue=7\n")
    put("128.dcf", b"[DeviceComissioning]\nNodeName=x\nNodeID=128\n")
    put("none.dcf", b"\n[DeviceComissioning]\n")
    put("long.dcf", b"[1017]\n" * 70000)
    for names, says in ((["nosuch.dcf"], "nosuch.dcf: No such file"), (["binary"], "binary: this is no text"),
                        (["utf16.dcf"], "UTF-16"), ([example("servo_axes.txt")], "this is a data sheet, and no DCF"),
                        (["sheet.eds"], "sheet.eds: no [DeviceComissioning] says which node it is of"),
                        (["5.dcf", "other.dcf"], "5.dcf and other.dcf are both of node 5"),
                        (["128.dcf"], "128.dcf:3: NodeID is 1 to 127, not 128"), (["none.dcf"], "none.dcf:2: NodeID is 1 to 127, not missing"),
                        (["long.dcf"], "70,000 lines"), (["."], "Is a directory")):
        is_refused(run("import", *names), says)
    is_refused(run("import"), "DCF")
    is_refused(run("import", "--sheets", "a #b", "5.dcf"), "no script can name this folder")
    many = [put(f"{node}.dcf", b"[DeviceComissioning]\nNodeID=%d\n" % node) for node in range(1, 128)]
    is_refused(run("import", *many), "127 nodes leave no number for the manager")
    assert run("import", *many[:-1])[0] == 0


def test_import_takes_windows_and_dos_files():
    put("5.dcf", (DCF % b"ParameterValue=7\n").replace(b"\n", b"\r\n") + b"\x1a")
    put("6.dcf", b"\xef\xbb\xbf" + (DCF % b"ParameterValue=7\n").replace(b"NodeID=5\nNodeName=pump", b"NodeID=6"))
    status, output, faults = run("import", "5.dcf", "6.dcf")
    assert status == 0 and b"\nparam 5 1017 0 7\n" in output and b"\nparam 6 1017 0 7\n" in output and b"\r" not in output
    assert output.count(b"\neds ") == 1 and not faults, output
