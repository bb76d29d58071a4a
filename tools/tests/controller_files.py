"""The DCFs of the machine of machine_files.py where the manager runs in its controller, node 10: the data sheet of that has the
objects of an NMT master (CiA 302-2), and its DCF says which nodes it boots, and which of them are mandatory."""
import os

import machine_files
from helper import kept_at, put

CONTROLLER, MANDATORY = 10, (1, 30)
BOOTED = (1, 2, 3, 4, 5, 6, 20, 21, 22, 30, 31, 40)
COMPACT = {0x1F22: ("Concise DCF", 0x0F), 0x1F81: ("NMT slave assignment", 7), 0x1F84: ("Device type identification", 7),
           0x1F85: ("Vendor identification", 7), 0x1F86: ("Product code", 7), 0x1F87: ("Revision numbers", 7), 0x1F88: ("Serial numbers", 7)}
SINGLE = {0x1F80: "NMT startup", 0x1F89: "Boot time"}


def compact(index, count=127):
    """The section of an array of the manager, an entry for each node."""
    name, kind = COMPACT[index]
    return (f"[{index:04X}]\nParameterName={name}\nObjectType=0x8\nDataType=0x{kind:04X}\nAccessType=rw\nPDOMapping=0\n"
            f"CompactSubObj={count}\n\n")


def single(index):
    """The section of a variable of the manager."""
    return (f"[{index:04X}]\nParameterName={SINGLE[index]}\nObjectType=0x7\nDataType=0x0007\nAccessType=rw\nDefaultValue=0\n"
            "PDOMapping=0\n\n")


def objects(without=()):
    """The sections of the objects of a manager, but for some."""
    made = {**{index: compact(index) for index in COMPACT}, **{index: single(index) for index in SINGLE}}
    return "".join(text for index, text in sorted(made.items()) if index not in without)


def sheet(of_manager):
    """The data sheet of the controller, with these sections of a manager."""
    with open(os.path.join(kept_at(machine_files.FOLDER), "plc.eds"), encoding="latin-1", newline="") as opened:
        return opened.read() + of_manager


def assignments():
    """What the file of the controller says of the nodes."""
    return {"1F80": 1, **{f"1F81sub{node:X}": 0xD if node in MANDATORY else 5 for node in BOOTED}}


def write_all(of_manager=None, values=None):
    """Writes the DCFs into the folder of this test; their names, by the nodes' numbers."""
    of_manager, values = objects() if of_manager is None else of_manager, assignments() if values is None else values
    names = machine_files.write_all()
    text = machine_files.dcf(sheet(of_manager), CONTROLLER, "controller", {**machine_files.controller(), **values})
    put(names[CONTROLLER], text.encode("latin-1"))
    return names
