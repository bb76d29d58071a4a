"""A machine whose manager runs in its controller: its DCFs imported, checked, exported with the DCF of the master, imported again,
and its run compared with the plan. What the files say is read by dcf_reader, which is written apart."""
import os
import re
import shutil

import controller_files
import machine_files
from controller_files import BOOTED, CONTROLLER, MANDATORY, compact, objects
from dcf_reader import Dcf
from helper import ROOT, answers, file, is_refused, put, recorded, run

from cobench_tools import concise
from cobench_tools.concise import values_of
from cobench_tools.data_types import WHOLE
from cobench_tools.dcf_text import DcfText
from cobench_tools.device import Device
from cobench_tools.tool import Fault

MASTER = os.path.join("files", "10_controller_master.dcf")
HEARTBEATS = {**dict.fromkeys((1, 2, 3, 4, 5, 6), 100), **dict.fromkeys((20, 21, 22), 200), **dict.fromkeys((30, 31, 40), 500)}


def imported(*words, **of_controller):
    """The script that is made of the machine, in the folder of this test, and what is told of it."""
    names = controller_files.write_all(**of_controller)
    shutil.rmtree("sheets", ignore_errors=True)
    status, made, faults = run("import", "--sheets", "sheets", *words, *names.values())
    assert status == 0, faults
    put("made.txt", made + b"horizon 520000\n")
    return made.decode(), faults


def exported(script="made.txt", folder="files"):
    """The status of an export, what it prints, and what it notes."""
    status, output, faults = run("export", "--cobench", recorded(), folder, script)
    return status, output.decode(), faults


def read(path):
    with open(path, encoding="latin-1") as opened:
        return Dcf(opened.read())


def commands_of(text):
    """The commands of a script in their order, without comments, data sheets and how numbers are spelled."""
    lines = [line for line in text.splitlines() if line and not line.startswith(("#", "eds "))]
    return [re.sub(r"(?<= )0x0*([0-9A-F]+)$", lambda found: str(int(found.group(1), 16)), line) for line in lines]


# Import.

def test_import_has_the_manager_run_in_the_controller():
    made, faults = imported()
    assert made.splitlines()[1:4] == ["version 3", "bitrate 500", "manager 10 4000 100 500"]
    assert "\n# the manager runs in it (1F80h, 1F81h, 1005h)\nnode 10 controller plc\n" in made
    assert re.findall(r"(?m)^need .*", made) == [f"need {node} mandatory" for node in MANDATORY]
    assert re.findall(r"(?m)^param 10 .*", made) == ["param 10 1005 0 0x40000080", "param 10 1006 0 0xFA0", "param 10 1017 0 0x64"]
    assert len(re.findall(r"(?m)^node ", made)) == 13
    assert re.fullmatch(r"10_controller.dcf:\d+: note: no parameter is needed, as the network makes the same value \(--all makes one\): "
                        r"1F80h:00 .* and 5 more\n", faults), faults


def test_import_keeps_what_the_network_does_not_make():
    """Another value of 1F81h than the network makes becomes a parameter; with --all each does."""
    values = {**controller_files.assignments(), "1F81sub3": 0x00640305, "1F81sub32": 1}
    made, faults = imported(values=values)
    assert re.findall(r"(?m)^param 10 1F.*", made) == ["param 10 1F81 3 0x640305", "param 10 1F81 32 0x1"]
    assert re.search(r"10_controller.dcf:\d+: warning: 1F81h has nodes of which there is no file: 50\n", faults), faults
    made, _ = imported("--all", values=values)
    assert len(re.findall(r"(?m)^param 10 1F8", made)) == 14


def machine_without(sync=True, heartbeat=True):
    """The machine with a controller whose data sheet has no object of a manager, of SYNC or of its heartbeat."""
    names = machine_files.write_all()
    text = file(names[CONTROLLER]).decode("latin-1")
    for section in ([] if sync else ["1005", "1006"]) + ([] if heartbeat else ["1017"]):
        text = re.sub(rf"(?s)\[{section}\].*?(?=\n\[)", "", text)
    put(names[CONTROLLER], text.encode("latin-1"))
    return names


def told(names, *words):
    """What an import of files prints and tells."""
    status, made, faults = run("import", *words, *names.values())
    assert status == 0, faults
    return made.decode("latin-1"), faults.splitlines()


def test_import_takes_the_sender_of_sync_for_the_controller():
    made, faults = told(machine_without())
    assert "\nmanager 10 4000 100 500\n" in made and "(1005h)\nnode 10 controller plc" in made
    assert faults == ["10_controller.dcf:80: note: it is to send SYNC (1005h), so the manager is taken to run in it; "
                      "--manager N says another node, --manager 0 that it runs in none"], faults


def test_import_says_what_to_give_where_the_files_do_not_say_it():
    names = machine_without(sync=False, heartbeat=False)
    made, faults = told(names)
    assert ("\n# no file shows in which node the manager runs, so it has a number of its own here; --manager N names the node\n"
            "# no file says how often SYNC comes: the second number below, in microseconds\nmanager 127 0 0 500\n") in made
    assert not faults
    made, faults = told(names, "--manager", "10")
    assert ("\nversion 3\nbitrate 500\n# no file says how often SYNC comes: the second number below, in microseconds\n"
            "# no file says how often the manager's heartbeat comes: the third number below, in milliseconds\nmanager 10 0 0 500\n") in made
    place = re.match(r"10_controller.dcf:\d+: ", faults[0]).group()
    assert faults == [f"{place}note: it has no 1005h and 1006h, so it doesn't say how often SYNC comes: give it as SYNC_US of manager 10, "
                      "in microseconds",
                      f"{place}note: it has no 1017h, so it doesn't say how often the manager's heartbeat comes: give it as HB_MS of manager 10, "
                      "in milliseconds"], faults


def test_import_tells_of_a_period_that_no_script_can_have():
    made, faults = told({1: one_of(1, sections(("1005", 7, "0x40000080"), ("1006", 7, 500), ("1017", 6, 7)))}, "--manager", "1")
    assert "\nmanager 1 0 7 500\n" in made
    assert faults == ["1.dcf:12: note: 1006h is 500, and SYNC_US of manager 1 is 0 or 1,000 to 10,000,000 microseconds"], faults


def test_import_takes_the_node_that_is_given():
    names = controller_files.write_all()
    made, faults = told(names, "--manager", "1")
    assert "\nmanager 1 4000 100 500\n" in made and "\n# the manager runs in it\nnode 1 axis1 dx2\n" in made and "need" not in made
    assert [line.partition("warning: ")[2] for line in faults] == ["it sends SYNC (1005h), and by the script the manager does: both do"]
    made, faults = told(names, "--manager", "0")
    assert "\nmanager 127 4000 0 500\n" in made and "need" not in made and "\nparam 10 1F81 1 0xD\n" in made
    assert [line.partition("warning: ")[2] for line in faults] == ["it sends SYNC (1005h), and by the script the manager does: both do"]
    is_refused(run("import", "--manager", "9", *names.values()), "--manager 9: there is no file of node 9; there are files of: 1, 2, 3,")
    is_refused(run("import", "--manager", "128", *names.values()), "--manager is 0 to 127, not 128")
    is_refused(run("import", "--manager", "x", *names.values()), "--manager")


def one_of(node, text=""):
    """Writes the DCF of a node with these sections."""
    return put(f"{node}.dcf", f"; \n{text}[DeviceComissioning]\nNodeID={node}\nNodeName=n{node}\n".encode())


def sections(*entries):
    return "".join(f"[{section}]\nDataType={kind}\nParameterValue={value}\n" for section, kind, value in entries)


def test_import_finds_the_controller_by_each_sign():
    """1F80h before 1F81h, before CANopenManager, before 1005h; of two with one sign the one with the next counts."""
    startup, slave, sync = ("1F80", 7, 1), ("1F81sub2", 7, 1), ("1005", 7, "0x40000080")
    for first, second, manager in (((startup,), (slave, sync), 1), ((slave,), (sync,), 1), ((sync,), (slave,), 2), ((sync,), (), 1),
                                   ((startup, sync), (startup, slave), 2), ((), (("1F81sub1", 7, 5),), 2),
                                   ((("1F80", 7, 2),), (), 127), ((("1F81sub2", 7, 4),), (), 127), ((("1005", 7, 128),), (), 127)):
        made, _ = told({1: one_of(1, sections(*first)), 2: one_of(2, sections(*second))})
        assert f"\nmanager {manager} 0 0 500\n" in made, (first, second, made)
    one_of(1, sections(sync))
    put("2.dcf", file(one_of(2, "[1005]\nDataType=7\n[1006]\nDataType=7\n[1017]\nDataType=6\n")) + b"CANopenManager=1\n")
    made, faults = told({1: "1.dcf", 2: "2.dcf"})
    assert "\nmanager 2 0 0 500\n" in made and not faults, "the key is no loss, and SYNC of no period isn't sent twice"


def test_import_asks_where_two_may_be_the_controller():
    sender = sections(("1005", 7, "0x40000080"), ("1006", 7, 10000))
    made, faults = told({1: one_of(1, sender), 2: one_of(2, sender)})
    assert "\nmanager 127 10000 0 500\n" in made
    assert faults == ["1.dcf:4: warning: it sends SYNC (1005h), and by the script the manager does: both do",
                      "2.dcf:4: warning: it sends SYNC (1005h), and by the script the manager does: both do",
                      "1.dcf:9: warning: the manager may run in each of the nodes 1 n1, 2 n2, and is taken to run in none: --manager N says in which"], faults
    put("2.dcf", file("2.dcf").replace(b"10000", b"20000"))
    made, faults = told({1: "1.dcf", 2: "2.dcf"}, "--manager", "2")
    assert "\nmanager 2 20000 0 500\n" in made, "the period of the node that the manager runs in"
    assert [line.partition(", ")[0] for line in faults] == ["1.dcf:4: warning: it sends SYNC (1005h)", "2.dcf:9: note: it has no 1017h"], faults


def test_import_takes_127_nodes_with_a_controller():
    names = {node: one_of(node) for node in range(1, 128)}
    is_refused(run("import", *names.values()), "127 nodes leave no number for the manager; --manager N says in which of them it runs")
    made, _ = told(names, "--manager", "127")
    assert "\nmanager 127 0 0 500\n" in made and made.count("\nnode ") == 127


# Check, export and conform.

def test_the_machine_is_checked_without_a_node_of_its_manager():
    imported()
    status, output, faults = run("check", "--cobench", recorded(), "made.txt")
    assert (status, faults) == (0, "") and re.fullmatch(rb"no errors, no warnings; 12 of 12 nodes booted by [0-9.]+ ms\n", output), output


def test_export_writes_the_dcf_of_the_master():
    """As a reader that is written apart has it."""
    imported()
    status, output, faults = exported()
    assert (status, faults) == (0, "") and "\n30 files in files: DCF and concise DCF of 13 nodes, DCF of the master, diagnostics.txt" in output
    dcf = read(MASTER)
    assert (dcf.node, dcf.name, dcf.sections["devicecomissioning"]["CANopenManager"]) == (10, "controller", "1")
    assert dcf.number(0x1F80, 0) == 1 and dcf.values[0x1F89, 0] == "0x00000000"
    for node in range(1, 128):
        wanted = (0xD if node in MANDATORY else 5) if node in BOOTED else 0
        assert dcf.number(0x1F81, node) == wanted, node
    for node in BOOTED:
        own = read(os.path.join("files", next(name for name in os.listdir("files") if re.fullmatch(rf"{node}_\w+\.dcf", name))))
        for place, key in enumerate(((0x1000, 0), (0x1018, 1), (0x1018, 2), (0x1018, 3), (0x1018, 4))):
            assert dcf.number(0x1F84 + place, node) == own.number(*key), (node, key)
        upload = dcf.sections[f"1f22sub{node:x}"]["UploadFile"]
        assert upload == f"{node}_{own.name}.bin" and concise.writes_of(file("files", upload)), upload
        assert any(dcf.number(0x1016, sub) == node << 16 | HEARTBEATS[node] * 3 // 2 for sub in range(1, 17)), node
    assert len([name for name, keys in dcf.sections.items() if "uploadfile" in keys]) == 12, "none for itself and none for others"
    assert sum(dcf.number(0x1016, sub) > 0 for sub in range(1, 17)) == 12
    assert (dcf.number(0x1005, 0), dcf.number(0x1006, 0), dcf.number(0x1017, 0)) == (0x40000080, 4000, 100)


# Smaller networks: what the data sheet of the controller takes.

PLC = """[1005]
DataType=7
[1006]
DataType=7
[1012]
DataType=7
[1016]
ObjectType=8
DataType=7
CompactSubObj=4
[1017]
DataType=6
[1019]
DataType=5

"""
PUMP = """[1000]
DataType=7
DefaultValue=0x00020192
[1017]
DataType=6
DefaultValue=33
[1018sub1]
DataType=7
DefaultValue=0x77
[1018sub2]
DataType=7
DefaultValue=5
[1018sub3]
DataType=7
DefaultValue=0x10000+$NODEID
[1018sub4]
DataType=7
DefaultValue=0
"""


def master_of(of_manager=None, *lines):
    """The DCF of the master in node 10 of a small network, None where there is none, and what is noted of it: the sheet of the
    controller has these objects of a manager, and the script these lines."""
    put("plc.eds", (PLC + (objects() if of_manager is None else of_manager)).encode())
    put("pump.eds", PUMP.encode())
    commands = ["version 3", "manager 10 4000 100 500", "horizon 15000", "eds plc <plc.eds", "eds pump <pump.eds", "node 5 pump pump",
                "node 10 controller plc", "node 40 fan pump", *lines]
    put("small.txt", "".join(f"{line}\n" for line in commands).encode())
    shutil.rmtree("files", ignore_errors=True)
    status, output, faults = exported("small.txt")
    assert status == 0, output
    notes = [re.fullmatch("small.txt:7: note: node 10 controller: (.*)", line).group(1) for line in faults.splitlines()]
    return read(MASTER) if os.path.exists(MASTER) else None, notes


def test_export_gives_the_master_what_manager_says():
    """SYNC, TIME, heartbeat and the SYNC counter of the script, where the controller's parameters don't say it; what they say stays."""
    dcf, notes = master_of(None, "manager 10 5000 70 500", "sync-counter 9", "time-period 100000 7")
    assert [dcf.number(index, 0) for index in (0x1005, 0x1006, 0x1012, 0x1017, 0x1019)] == [0x40000080, 5000, 0x40000100, 70, 9] and not notes
    dcf, notes = master_of(None, "manager 10 0 0 500", "sync-counter 9")
    assert [dcf.values[index, 0] for index in (0x1005, 0x1006, 0x1012, 0x1017, 0x1019)] == ["0", "0", "0", "0x0000", "0"] and not notes
    dcf, notes = master_of(None, "param 10 1006 0 9000", "param 10 1F89 0 250", "param 10 1F81 5 1", "param 10 1F84 5 0x20192", "need 5 mandatory")
    assert [dcf.number(*key) for key in ((0x1006, 0), (0x1F89, 0), (0x1F81, 5), (0x1F81, 40))] == [9000, 250, 1, 5]
    assert notes == ["1006h:00 is 0x00002328 by the script, and by its network 0x00000FA0", "1F81h:05 is 0x00000001 by the script, and by its network 0x0000000D",
                     "1F89h:00 is 0x000000FA by the script, and by its network 0x00000000"], notes


def test_export_names_each_object_that_the_sheet_lacks_once():
    for without in (0x1F22, 0x1F80, 0x1F81, 0x1F84, 0x1F86, 0x1F89):
        dcf, notes = master_of(objects({without}))
        assert notes == [f"its data sheet has no {without:04X}h"], notes
        there = {index for index, _ in dcf.values}
        assert without not in there and {0x1F80, 0x1F89} - {without} <= there
    dcf, notes = master_of(objects({0x1F88}))
    assert notes == [], "the data sheet of the nodes has 0 as its serial number"
    assert [dcf.number(0x1F84 + place, 40) for place in range(4)] == [0x20192, 0x77, 5, 0x10028]
    assert master_of(objects({0x1F80, 0x1F85, 0x1F89}))[1] == ["its data sheet has no 1F80h, 1F85h, 1F89h"]


def test_export_writes_no_file_of_a_master_where_the_sheet_has_none_of_its_objects():
    none = "there is no 10_controller_master.dcf, as its data sheet has none of the objects of a manager (1F22h, 1F80h to 1F89h)"
    assert master_of("") == (None, [none])
    assert master_of("[1F82]\nDataType=5\n") == (None, [none]), "a request is no setting"
    dcf, notes = master_of(objects(set(controller_files.COMPACT) | {0x1F89}))
    assert dcf.number(0x1F80, 0) == 1 and notes == ["its data sheet has no 1F22h, 1F81h, 1F84h, 1F85h, 1F86h, 1F87h, 1F89h"], notes


def test_export_tells_what_objects_of_the_master_do_not_take():
    """An array that is too short, an entry of another type, one that can't be written, one with a limit."""
    short = compact(0x1F81, 30).replace("PDOMapping", "HighLimit=4\nPDOMapping") + compact(0x1F84, 5)
    single = "[1F80]\nDataType=0x0005\n[1F89]\nDataType=0x0007\nAccessType=const\nDefaultValue=7\n"
    dcf, notes = master_of(objects({0x1F80, 0x1F81, 0x1F84, 0x1F89}) + short + single)
    assert notes == ["1F80h:00: not set, as its type is UNSIGNED8, and not UNSIGNED32", "1F81h:05: not set, as 0x00000005 is outside of its limits",
                     "1F89h:00: not set, as it is const", "1F81h has no sub-index for node 40", "1F84h has no sub-index for node 40"], notes
    assert [dcf.number(*key) for key in ((0x1F80, 0), (0x1F81, 5), (0x1F84, 5), (0x1F89, 0))] == [0, 0, 0x20192, 7]
    dcf, notes = master_of(objects().replace("AccessType=rw", "AccessType=ro"))
    assert "1F81h:05 and 1 more: not set, as it is ro" in notes and "1F22h:05 and 1 more: not set, as it is ro" in notes, notes
    assert not [note for note in notes if "1F89h" in note], "it is 0 as it should be"


def test_export_watches_the_nodes_that_the_controller_does_not_watch_by_itself():
    """The script's own consumers stay; those of the master take the sub-indexes that are left, as long as there are some."""
    dcf, notes = master_of(None, "param 40 1017 0 0")
    assert [dcf.number(0x1016, sub) for sub in range(1, 5)] == [5 << 16 | 50, 0, 0, 0] and not notes, "33 ms give 50"
    more = [f"node {node} more_{node} pump" for node in (6, 7, 8, 50)]
    dcf, notes = master_of(None, *more, "param 10 1016 2 0x00080064", "param 10 1016 3 0", "param 6 1017 0 60000", "param 40 1017 0 0")
    assert [dcf.number(0x1016, sub) for sub in range(1, 5)] == [0x50032, 0x80064, 0, 0x6FFFF]
    assert notes == ["1016h has no sub-index left for nodes 7, 50, whose heartbeat it doesn't watch"], notes


# The machine again.

def test_conform_takes_the_run_of_the_controller_for_planned():
    made, _ = imported()
    exported()
    status, output, faults = run("conform", "--cobench", recorded(), "made.txt", os.path.join("files", "trace.log"))
    assert (status, faults) == (0, "") and output.startswith(b"no errors, no warnings; "), output
    sent = {int(line.split()[1], 16) for line in file("files", "trace.txt").decode().splitlines() if "note" not in line}
    assert {each - 0x700 for each in sent if each > 0x700} == {*BOOTED, CONTROLLER}, "no number but those of the machine"
    names = {name.partition("_")[0] for name in os.listdir("files") if name[0].isdigit()}
    assert names == {str(node) for node in (*BOOTED, CONTROLLER)}


# The round trip, and the files of the folder.

def test_what_is_exported_is_imported_as_the_same_script():
    made, _ = imported()
    exported()
    names = sorted(os.path.join("files", name) for name in os.listdir("files") if name.endswith(".dcf"))
    assert len(names) == 14
    status, again, faults = run("import", "--sheets", "sheets2", *names)
    assert (status, faults) == (0, "") and commands_of(again.decode()) == commands_of(made), (faults, again)
    put("again.txt", again + b"horizon 520000\n")
    assert exported("again.txt", "files2")[0] == 0
    assert {name: file("files2", name) for name in os.listdir("files") if name[0].isdigit()} == {
        name: file("files", name) for name in os.listdir("files") if name[0].isdigit()}


def test_the_dcf_of_the_master_alone_says_the_same_and_whom_it_watches():
    made, _ = imported()
    exported()
    names = [os.path.join("files", name) for name in sorted(os.listdir("files")) if name.endswith(".dcf") and name != "10_controller.dcf"]
    status, again, faults = run("import", "--sheets", "sheets2", *names)
    commands = commands_of(again.decode())
    watched = [line for line in commands if line.startswith("param 10 1016 ")]
    assert len(watched) == 12 and [line for line in commands if line not in watched] == commands_of(made)
    assert b"UploadFile" not in file("sheets2", "plc.eds")
    notes = [line.partition(": note: ")[2] for line in faults.splitlines()]
    assert notes[0].startswith("files are not taken over, as cobtool export names those that it makes: 1F22h:01 (line ") and len(notes) == 2, faults


def test_what_a_script_sets_as_its_network_does_stays_a_parameter():
    """Of the DCF as cobench prints it each value was set by somebody; of that of the master only what the network doesn't make."""
    master_of(None, "param 10 1F81 5 5", "param 10 1F80 0 1")
    names = [os.path.join("files", name) for name in sorted(os.listdir("files")) if name.endswith(".dcf")]
    made, faults = told(dict(enumerate(names)))
    assert re.findall("(?m)^param 10 1F8.*", made) == ["param 10 1F80 0 0x00000001", "param 10 1F81 5 0x00000005"] and not faults, (made, faults)
    made, _ = told(dict(enumerate(name for name in names if not name.endswith("controller.dcf"))))
    assert "\nparam 10 1F8" not in made and "\nmanager 10 4000 100 500\n" in made


def test_a_node_of_the_longest_name_has_a_master_too():
    master_of()
    long = "n" * 32
    put("small.txt", file("small.txt").replace(b"node 10 controller", f"node 10 {long}".encode()))
    shutil.rmtree("files")
    assert exported("small.txt")[0] == 0 and f"10_{long}_master.dcf" in os.listdir("files")
    assert run("check", "--cobench", recorded(), "--files", "files", "small.txt")[0] == 0


def test_what_was_changed_in_the_dcf_of_the_master_is_told():
    """Beside the DCF of the node that of the master says who is mandatory; what else was changed in it isn't taken over."""
    made, _ = imported()
    exported()
    text = file(MASTER).decode()
    text = text.replace("\n40=0x00000005\n", "\n40=0x0000000D\n", 1).replace("\nParameterValue=0x00000000\n[1F22]", "\nParameterValue=0x00000001\n[1F22]")
    put(MASTER, re.sub(r"(\[1F89\][^[]*ParameterValue=)0x0+", r"\g<1>0x000001F4", text).encode())
    names = sorted(os.path.join("files", name) for name in os.listdir("files") if name.endswith(".dcf"))
    status, again, faults = run("import", *names)
    assert status == 0 and "need 40 mandatory" in commands_of(again.decode("latin-1"))
    assert re.fullmatch(r"files/10_controller_master.dcf:\d+: warning: not taken over, as the script is made of files/10_controller.dcf: "
                        r"1F89h:00 \(line \d+\)\n", faults), faults


def test_check_tells_of_the_file_of_the_master():
    made, _ = imported()
    exported()
    put("made.txt", file("made.txt").replace(b"need 30 mandatory\n", b""))
    lines = run("check", "--cobench", recorded(), "--files", "files", "made.txt")[1].decode().splitlines()
    assert any(re.fullmatch(r"files/10_controller_master.dcf:\d+: error: isn't what the script makes now \[stale\]", line) for line in lines), lines
    put(MASTER, file(MASTER) + b"\n")
    put("made.txt", made.encode() + b"horizon 520000\n")
    lines = run("check", "--cobench", recorded(), "--files", "files", "made.txt")[1].decode().splitlines()
    assert len(lines) == 2 and lines[0].endswith(": error: isn't as it was exported [edited]"), lines
    os.remove(MASTER)
    lines = run("check", "--cobench", recorded(), "--files", "files", "made.txt")[1].decode().splitlines()
    assert len(lines) == 2 and lines[0] == "files/10_controller_master.dcf:1: error: isn't there [missing]", lines


def test_it_is_said_that_no_real_master_was_tried():
    assert b"It was tried with no real master." in run("export", "--help")[1].replace(b"\n", b" ")
    assert "**It was tried with no real master.**" in file(ROOT, "docs", "masters.md").decode()


# The text of the DCF of the master.

ODD = """eds plc 44
[1005]
DataType=7
[1006]
DataType=7
[1017]
DataType=6
[1016]
ObjectType=8
DataType=7
CompactSubObj=3
[1F80]
ParameterName=NMT startup
DataType=7
ParameterValue=
Last=key
[1F81]
ObjectType=8
DataType=7
CompactSubObj=127
[1F84Value]
9=1
NrOfEntries=1
note=kept
[1f84]
ObjectType=8
DataType=7
CompactSubObj=16
[1F85SUB5]
DataType=7
[1F86]
ObjectType=8
DataType=7
CompactSubObj=16
[1F22sub5]
ObjectType=2
[3000]
ObjectType=8
DataType=5
CompactSubObj=2
[2000]
ObjectType=8
DataType=5
CompactSubObj=2
[3000Value]
NrOfEntries=0
"""
NETWORK = """version 3
manager 10 4000 100 500
horizon 0
eds pump 14
[1000]
DataType=7
DefaultValue=0x00020192
[1017]
DataType=6
DefaultValue=33
[1018sub1]
DataType=7
DefaultValue=0x77
[1018sub2]
DataType=7
DefaultValue=5
[FileInfo]
FileName=pump.eds
node 5 pump pump
node 10 plc plc
param 10 2000 1 4
param 10 3000 2 5
"""
WANTED = {(0x1005, 0): "0x40000080", (0x1006, 0): "0x00000FA0", (0x1016, 1): "0x00050032", (0x1017, 0): "0x0064", (0x1F80, 0): "0x00000001",
          (0x1F81, 5): "0x00000005", (0x1F84, 5): "0x00020192", (0x1F85, 5): "0x00000077", (0x1F86, 5): "0x00000005"}


def test_the_dcf_of_the_master_is_as_cobench_prints_a_dcf_of_these_values():
    """cobench is asked for the same DCF by a script that sets the values as parameters."""
    put("net.txt", (ODD + NETWORK).encode())
    status, _, faults = run("export", "--force", "--cobench", recorded(), "files", "net.txt")
    assert status in (0, 1) and "its data sheet has no 1F89h\n" in faults, faults
    made = file("files", "10_plc_master.dcf").splitlines()
    params = "".join(f"param 10 {index:X} {sub:X} {text}\n" for (index, sub), text in WANTED.items())
    wanted = answers(recorded(), (ODD + NETWORK + params).encode(), b"dcf 10\n")[0]
    added = [line for line in made if line not in (b"UploadFile=5_pump.bin", b"CANopenManager=1")]
    assert added == wanted and len(made) == len(wanted) + 2, "\n".join(map(repr, made))
    assert made[made.index(b"[1F22sub5]") + 2] == b"UploadFile=5_pump.bin" and made[-1] == b"CANopenManager=1"
    last = answers(recorded(), (ODD + NETWORK + params).encode(), b"cdcf 10\n")[0]
    assert {key: f"0x{int.from_bytes(data, 'little'):0{2 * len(data)}X}" for key, data in values_of(last).items() if key in WANTED} == WANTED


def test_a_compact_object_gets_sections_where_a_file_is_named():
    """Each keeps what it says: type, access, name; the other objects stay as they are."""
    lines = ("[1F22]", "ParameterName=Concise DCF", "ObjectType=8", "DataType=0x000F", "AccessType=rw", "CompactSubObj=3", "[1F22Name]", "NrOfEntries=1",
             "2=The pump", "[1F81]", "ObjectType=8", "DataType=7", "CompactSubObj=3", "[DeviceComissioning]", "NodeID=10")
    lines = [line.encode() for line in lines]
    text = DcfText(lines, lines)
    before = Device(lines, WHOLE)
    text.upload((0x1F22, 2), "2_pump.bin")
    text.upload((0x1F22, 3), "3_fan.bin")
    text.set((0x1F81, 2), "0x00000005")
    made = text.lines()
    after = Device(made, WHOLE)
    assert sorted(after.entries) == sorted(before.entries)
    for key, entry in before.entries.items():
        other = after.entries[key]
        assert (other.kind, other.access, other.mappable) == (entry.kind, entry.access, entry.mappable), key
    assert after.entries[0x1F22, 2].name.endswith("The pump") and after.entries[0x1F22, 0].default == "3"
    assert after.entries[0x1F22, 1].name.endswith("Concise DCF 1")
    names = [line.decode() for line in made if line.startswith(b"[")]
    assert names == ["[1F22]", "[1F22sub0]", "[1F22sub1]", "[1F22sub2]", "[1F22sub3]", "[1F81]", "[1F81Value]", "[DeviceComissioning]"], names
    assert [line for line in made if b"Upload" in line] == [b"UploadFile=2_pump.bin", b"UploadFile=3_fan.bin"]
    assert after.sections["1f22"]["subnumber"] == "4" and "compactsubobj" not in after.sections["1f22"]


def test_a_reply_that_is_no_dcf_is_told():
    for lines in ([b"key=value"], [b"[1F80]", b"DataType=7"], []):
        try:
            DcfText(lines, [])
        except Fault as fault:
            assert str(fault) == "the reply to dcf is no DCF"
            continue
        raise AssertionError(lines)
    try:
        DcfText([b"[DeviceComissioning]"], []).set((0x1F80, 0), "1")
    except Fault as fault:
        assert str(fault) == "the reply to dcf is no DCF"
        return
    raise AssertionError("an entry that isn't there")
