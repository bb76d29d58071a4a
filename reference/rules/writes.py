"""The writes of a node: of its parameters docs/rules/commands.md, of its PDOs docs/rules/messages.md.

In version 3 a closed PDO gets its transmission type and event time alone, an RPDO the event time of a `receive`, and a
PDO that no clean message uses is turned off."""
from .concise_dcf import Write
from .pdo_objects import (COB_ID, EVENT, INHIBIT, RPDO, START, TPDO, TYPE, TYPES, PdoObjects, is_synchronous,
                          numbers_of, write_of)
from .values import UNSIGNED8, UNSIGNED32, value
from .write_check import NO_RTR, OBJECTS_OF_PDOS, OFF

NO_ENTRY, NO_VALUE, OUTSIDE_LIMITS, READ_ONLY, NOT_MODELLED = 1, 2, 3, 4, 16

def parameter_texts(project, node):
    """The text of each parameter: the node's own, else the ParameterValue of its sheet outside the objects of PDOs."""
    texts = {place: described.value for place, described in project.sheet(node).entries.items()
             if described.value and place[0] not in OBJECTS_OF_PDOS}
    texts.update({key[1:]: text for key, text in project.parameters.items() if key[0] == node})
    return texts

def parameter_fault(shape, place, text, node, is_of_event=False):
    """Why a parameter isn't written, or None. An event sets an entry whatever its access and its limits are."""
    entry = shape.entry(*place)
    if entry is None:
        return NO_ENTRY
    if entry.type is None:
        return NOT_MODELLED
    if not is_of_event and not entry.is_writable():
        return READ_ONLY
    data = value(entry.type, text, node)
    if data is None:
        return NO_VALUE
    return None if is_of_event or entry.value_check(data) is None else OUTSIDE_LIMITS

def parameter_writes(project, node):
    shape = project.sheet(node).shape(node)
    return [Write(place, value(shape.types[place], text, node))
            for place, text in sorted(parameter_texts(project, node).items())
            if parameter_fault(shape, place, text, node) is None]

def node_writes(project, plan, node):
    """The parameters by index and sub-index, then the TPDOs and then the RPDOs by number."""
    writes = parameter_writes(project, node)
    for base, used in ((TPDO, sent_by(plan, node)), (RPDO, taken_by(plan, node))):
        for number in numbers_of(project, node, base):
            pdo = PdoObjects(project, node, base, number)
            writes += used_writes(pdo, used[number], node) if number in used else pdo.off_writes()
    return writes

def sent_by(plan, node):
    """The clean messages that a node sends, by TPDO."""
    return {planned.message.tpdo: planned for planned in plan if planned.is_clean() and planned.message.node == node}

def taken_by(plan, node):
    """The clean messages that a node takes, by RPDO."""
    return {planned.rpdos[node]: planned for planned in plan if planned.is_clean() and node in planned.rpdos}

def used_writes(pdo, planned, node):
    message, milliseconds = planned.message, planned.milliseconds(node)
    if pdo.receives:
        parameters = [(TYPE, 0 if is_synchronous(message.type) else 255)]
        parameters += [(EVENT, milliseconds)] if milliseconds else []          # 0 leaves the entry as it is
        return pdo_writes(pdo, planned.identifier, parameters, planned.mappings[node])
    parameters = [(TYPE, message.type), (INHIBIT, message.inhibit), (EVENT, message.event), (START, message.start)]
    return pdo_writes(pdo, NO_RTR | planned.identifier, parameters, planned.mapping)

def pdo_writes(pdo, cob_id, parameters, mapping):
    """An open PDO is configured while it is off, and its mapping while its count is 0."""
    settings = [write_of(pdo.communication, sub, TYPES[sub], number) for sub, number in parameters
                if pdo.is_written(sub, number)]
    if not pdo.is_open():
        return settings
    off, on = (write_of(pdo.communication, COB_ID, UNSIGNED32, bits | cob_id) for bits in (OFF, 0))
    items = [write_of(pdo.mapping, sub, UNSIGNED32, item) for sub, item in enumerate(mapping, 1)]
    before, behind = (write_of(pdo.mapping, 0, UNSIGNED8, count) for count in (0, len(mapping)))
    return [off, *settings, *([before, *items, behind] if pdo.writes_mapping(mapping) else []), on]
