"""Faults of data sheets that cobench reads past: what checkers of EDS files report (CiA 306), as warnings."""
import re

from . import ini, values
from .data_types import BITS, is_modelled
from .device import ACCESSES, ARRAY, DOMAIN, RECORD, VAR, object_name, read_number
from .findings import Finding
from .report import counted
from .safe_text import shortened

SHEET = "sheet"
NODE = 1      # the node for which $NODEID is read
MOST_NAMED = 8
LISTS = {name.lower(): name for name in ("MandatoryObjects", "OptionalObjects", "ManufacturerObjects")}
MANUFACTURER = range(0x2000, 0x6000)
MANDATORY = 0x1000, 0x1001, 0x1018
RESERVED = range(0x0000, 0x0001), range(0x0260, 0x1000), range(0xC000, 0x10000)
PDOS = (range(0x1400, 0x1600), "communication"), (range(0x1600, 0x1800), "mapping"), (
    range(0x1800, 0x1A00), "communication"), (range(0x1A00, 0x1C00), "mapping")
SUB = re.compile("([0-9a-f]{4})sub([0-9a-f]{1,2})")


class Fault:
    """A fault of a data sheet: its line, what kind it is, its entry as index and sub-index, and what is wrong."""

    def __init__(self, line, kind, key, text):
        self.line, self.kind, self.key, self.text = line, kind, key, text

    def name(self):
        """Its entry with its line."""
        return f"{object_text(self.key)} (line {self.line})"


def object_text(key):
    """An object, or an entry of one."""
    return object_name(key) if key[1] is not None else f"{key[0]:04X}h"


def faults_of(device, lines):
    """The faults of a data sheet, by line."""
    faults = [fault for key, keys in described(device) for fault in of_entry(key, keys, device.version)]
    faults += sub_numbers(device) + pdo_objects(device) + names(device) + reserved(device) + lists(device)
    return sorted(faults + sections(lines), key=lambda fault: (fault.line, fault.kind))


def described(device):
    """The sections that describe an entry each, with its index and sub-index."""
    for section, keys in device.sections.items():
        sub = SUB.fullmatch(section)
        if sub:
            yield (int(sub.group(1), 16), int(sub.group(2), 16)), keys
        elif re.fullmatch("[0-9a-f]{4}", section) and object_type(keys) in (VAR, DOMAIN):
            yield (int(section, 16), 0), keys


def object_type(keys):
    return read_number(keys.get("objecttype", "7"))


# One entry.

def of_entry(key, keys, version):
    """The faults of the section of an entry, in scripts of a version."""
    faults = []

    def fault(name, kind, text):
        faults.append(Fault(keys.lines.get(name, keys.line), kind, key, text))

    access, mapping, kind = keys.get("accesstype", ""), keys.get("pdomapping", ""), keys.get("datatype", "")
    if access and access.lower() not in ACCESSES:
        fault("accesstype", "access",
              f'AccessType "{shortened(access)}" is none of {", ".join(ACCESSES)}, and rw is taken for it')
    if mapping and read_number(mapping) not in (0, 1):
        taken = int(bool(read_number(mapping)))
        fault("pdomapping", "mapping",
              f'PDOMapping "{shortened(mapping)}" is neither 0 nor 1, and {taken} is taken for it')
    if not kind and object_type(keys) != DOMAIN:
        fault("datatype", "type", "there is no DataType, so that nothing is written, sent or simulated of it")
    elif kind and read_number(kind) is None:
        fault("datatype", "type", f'DataType "{shortened(kind)}" is no number')
    number = read_number(kind)
    if number in BITS and is_modelled(number, version):
        for name, what, text in limits(number, keys):
            fault(name, what, text)
    return faults


def limits(kind, keys):
    """What is wrong with the limits and the default of an entry of BOOLEAN, an integer or a REAL type: key, kind and words."""
    texts = {name: keys.get(name, "") for name in ("lowlimit", "highlimit", "defaultvalue")}
    low, high, default = (values.measure_of(kind, text, NODE) if text else None for text in texts.values())
    if low is not None and high is not None and high < low:
        high_text, low_text = shortened(texts["highlimit"]), shortened(texts["lowlimit"])
        yield "highlimit", "limits", f"HighLimit {high_text} is below LowLimit {low_text}"
    elif default is not None and low is not None and default < low:
        yield "defaultvalue", "default", default_text("below the LowLimit", texts["defaultvalue"], texts["lowlimit"])
    elif default is not None and high is not None and default > high:
        yield "defaultvalue", "default", default_text("above the HighLimit", texts["defaultvalue"], texts["highlimit"])


def default_text(where, default, limit):
    return f"DefaultValue {shortened(default)} is {where} {shortened(limit)}"


# Objects.

def objects(device):
    """The sections of objects, by index."""
    return {int(section, 16): keys for section, keys in device.sections.items() if re.fullmatch("[0-9a-f]{4}", section)}


def sub_numbers(device):
    """The objects whose SubNumber isn't the number of their sub-indexes."""
    count, faults = {}, []
    for section in device.sections:
        sub = SUB.fullmatch(section)
        if sub:
            count[int(sub.group(1), 16)] = count.get(int(sub.group(1), 16), 0) + 1
    for index, keys in objects(device).items():
        number, there = read_number(keys.get("subnumber", "")), count.get(index, 0)
        is_compact = bool(read_number(keys.get("compactsubobj", "0")))
        if object_type(keys) in (ARRAY, RECORD) and not is_compact and number is not None and number != there:
            text = f"SubNumber is {number}, and there {'is 1 sub-index' if there == 1 else f'are {there} sub-indexes'}"
            faults.append(Fault(keys.lines["subnumber"], "subs", (index, None), text))
    return faults


def pdo_objects(device):
    """The communication and mapping objects of PDOs of which the other one isn't there."""
    there, described_ones, faults = {index for index, _ in device.entries}, objects(device), []
    for span, what in PDOS:
        other = "mapping" if what == "communication" else "communication"
        step = 0x200 if what == "communication" else -0x200
        for index in sorted(there & set(span)):
            if index + step not in there:
                line = described_ones[index].line if index in described_ones else min(
                    entry.keys.line for key, entry in device.entries.items() if key[0] == index)
                text = f"it is the {what} object of a PDO, and there is no {other} object {index + step:04X}h"
                faults.append(Fault(line, "pdo", (index, None), text))
    return faults


def reserved(device):
    """The objects where there are none."""
    return [Fault(keys.line, "area", (index, None), f"CiA 301 reserves {span[0]:04X}h to {span[-1]:04X}h")
            for index, keys in objects(device).items() for span in RESERVED if index in span]


def names(device):
    """The names that several objects have, or several sub-indexes of one."""
    seen, faults = {}, []
    for section, keys in device.sections.items():
        sub, name = SUB.fullmatch(section), keys.get("parametername", "")
        is_object = re.fullmatch("[0-9a-f]{4}", section)
        if not name or not (sub or is_object):
            continue
        key = (int(sub.group(1), 16), int(sub.group(2), 16)) if sub else (int(section, 16), None)
        before = seen.setdefault((sub.group(1) if sub else None, name.lower()), key)
        if before != key:
            text = f'ParameterName "{shortened(name)}" is the name of {object_text(before)} too'
            faults.append(Fault(keys.lines["parametername"], "name", key, text))
    return faults


# Lists of objects.

def lists(device):
    """Where the lists of objects don't fit the objects; an object whose list isn't there stands in none."""
    there, listed, faults = objects(device), {}, []
    for section, title in LISTS.items():
        keys = device.sections.get(section)
        faults += of_list(keys, title, there, listed) if keys is not None else []
    return faults + [Fault(keys.line, "lists", (index, None),
                           f"it stands in no list of objects: [{area(index)}] is its place")
                     for index, keys in there.items()
                     if index >= 0x1000 and index not in listed and area(index).lower() in device.sections]


def area(index):
    """The list in which an object of an index belongs."""
    if index in MANDATORY:
        return LISTS["mandatoryobjects"]
    return LISTS["manufacturerobjects" if index in MANUFACTURER else "optionalobjects"]


def of_list(keys, title, there, listed):
    """The faults of a list of objects; `listed` gets its objects."""
    found, faults = [], []
    for name, text in keys.items():
        index = read_number(text) if re.fullmatch("[0-9]+", name) else None
        if index is not None:
            found.append((keys.lines[name], index))
    supported = read_number(keys.get("supportedobjects", ""))
    if supported is not None and supported != len(found):
        line = keys.lines["supportedobjects"]
        there_are = counted(len(found), "object")
        faults.append(Fault(line, "lists", None, f"[{title}] has SupportedObjects={supported}, and {there_are}"))
    for line, index in found:
        if index in listed:
            faults.append(Fault(line, "lists", (index, None), f"[{title}] has it, and [{listed[index]}] too"))
        elif index not in there:
            text = f"[{title}] has it, and there is no section [{index:04X}]"
            faults.append(Fault(line, "lists", (index, None), text))
        elif (title == LISTS["manufacturerobjects"]) != (index in MANUFACTURER):
            faults.append(Fault(line, "area", (index, None), f"[{title}] has it, and [{area(index)}] is its place"))
        listed.setdefault(index, title)
    return faults


def sections(lines):
    """The sections that stand twice: the second one adds to the first."""
    seen, faults = {}, []
    for number, line in enumerate(lines, 1):
        name = ini.header_of((ini.without_mark(line) if number == 1 else line).strip(ini.BLANKS))
        if name is not None and seen.setdefault(name, number) != number:
            faults.append(Fault(number, "section", None, f"[{shortened(name)}] stands in line {seen[name]} already"))
    return faults


# Findings.

def findings_of(eds, faults, place):
    """The findings of the faults of a data sheet, those of one text as one; `place` gives FILE:LINE of a line."""
    groups, found = {}, []
    for fault in faults:
        groups.setdefault((fault.kind, fault.text), []).append(fault)
    for (kind, text), several in groups.items():
        keys = [fault.name() for fault in several if fault.key]
        more = [f"and {len(keys) - MOST_NAMED} more"] if len(keys) > MOST_NAMED else []
        about = object_text(several[0].key) + ": " if len(keys) == 1 else ""
        rest = f": {', '.join(keys[:MOST_NAMED] + more)}" if len(keys) > 1 else ""
        words = [SHEET, eds, kind] + ([entry_words(several[0].key)] if len(keys) == 1 else [])
        found.append(Finding(place(several[0].line), " ".join(words), f"eds {eds}", f"data sheet {eds}",
                             about + text + rest))
    return found


def entry_words(key):
    """The words of an entry in those that accept a finding."""
    return f"{key[0]:04X}" + (f" {key[1]:02X}" if key[1] is not None else "")


def of(evidence):
    """The findings of all data sheets of a session."""
    return [finding for eds, lines in sorted(evidence.project.texts.items())
            for finding in findings_of(eds, faults_of(evidence.sheet(eds), lines),
                                       lambda line, eds=eds: evidence.origins.sheet_place(eds, line))]
