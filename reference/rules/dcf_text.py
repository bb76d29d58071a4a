"""The DCF of a node: docs/rules/dcf_text.md."""
from .entries import code_of, compact_count, decimal_keys, object_sections
from .ini_text import Section
from .values import text_of_value, type_of_code

SPELLINGS = b"DeviceComissioning", b"DeviceCommissioning"

def dcf_text(sheet, node, name, bitrate, writes):
    """The text of a node's data sheet, with the values that the node gets, and who it is."""
    content = sheet.content.copy()
    changed = take_values_out(sheet, content) | set_values(sheet, content, dict(writes))
    for index in sorted(changed):
        section = content.section(values_name(index))
        section.put(b"NrOfEntries", b"%d" % len(decimal_keys(section)))
    set_commissioning(content, [(b"NodeID", b"%d" % node), (b"NodeName", name), (b"Baudrate", b"%d" % bitrate)])
    return content.text()

def values_name(index):
    return b"%04XValue" % index

def take_values_out(sheet, content):
    """The indices of the compact objects whose listed values were taken out."""
    for place, described in sheet.entries.items():
        if not described.is_compact and sheet.types[place] is not None:
            content.section(described.section).remove(b"ParameterValue")
    changed = set()
    for index, section in object_sections(content):
        kind = type_of_code(code_of(section), sheet.has_all_types)
        values = content.section(values_name(index)) if kind is not None and compact_count(section) else None
        for _, key in decimal_keys(values) if values else []:
            values.remove(key)
            changed.add(index)
    return changed

def set_values(sheet, content, last):
    """Sets the last data of each entry that is written; gives the indices of the compact objects that got values."""
    changed = set()
    for (index, sub), data in sorted(last.items()):
        described, text = sheet.entries[index, sub], text_of_value(sheet.types[index, sub], data)
        if not described.is_compact:
            content.section(described.section).put(b"ParameterValue", text)
            continue
        if content.section(values_name(index)) is None:
            content.section_or_new(values_name(index)).put(b"NrOfEntries", b"")
        content.section(values_name(index)).put(b"%d" % sub, text)
        changed.add(index)
    return changed

def set_commissioning(content, pairs):
    """The section of these pairs at the end, with the others that the text had under either spelling."""
    old = [content.sections.pop(spelling.lower(), Section(spelling)) for spelling in SPELLINGS]
    section = content.section_or_new(SPELLINGS[0])
    for key, text in (*pairs, *(pair for each in old for pair in each.pairs.values())):
        if section.value_at(key) is None:
            section.put(key, text)
