"""The tables of a network for the papers of its machine: nodes, messages, signals, parameters, heartbeats."""
from . import pdo_values, reals, safe_text, tool, values
from .data_types import NUMBERS, REALS, SIGNED, VISIBLE_STRING, type_name
from .device import object_name
from .meaning import day_text
from .tables import Table

NONE = "-"


def value_text(kind, data):
    """Bytes as a value of a data type: numbers decimal, unsigned ones of integer types hexadecimal too."""
    if kind == VISIBLE_STRING:
        return safe_text.readable(tool.shown(data))
    if 8 * len(data) == REALS.get(kind):
        return reals.text_of(kind, data)
    if kind not in NUMBERS:
        return data.hex(" ").upper()
    number = int.from_bytes(data, "little", signed=kind in SIGNED)
    return str(number) if kind in SIGNED or number < 10 else f"{number} ({number:X}h)"


def ordinal(number):
    ending = "th" if 11 <= number % 100 <= 13 else {1: "st", 2: "nd", 3: "rd"}.get(number % 10, "th")
    return f"{number}{ending}"


def milliseconds(hundreds):
    """A time in multiples of 100 us as milliseconds."""
    return f"{hundreds / 10:.1f}".replace(".0", "") if hundreds else NONE


def when(tpdo):
    """When a TPDO is sent, in words."""
    kind = tpdo.kind
    if kind is None or 241 <= kind <= 251:
        return "never"
    if kind == 0:
        return "at SYNC, when changed"
    if kind <= 240:
        return "at each SYNC" if kind == 1 else f"at each {ordinal(kind)} SYNC"
    if kind < 254:
        return "when asked for"
    return "when changed" + (f", and after {tpdo.event} ms" if tpdo.event else "")


def heading(title, network):
    """The title, and the settings of the network in a line."""
    project = network.project
    manager, sync, heartbeat, timeout = project.manager
    counted = f", counted 1 to {project.sync_counter}" if project.sync_counter else ""
    name = "" if project.controller is None else f" {network.name(manager)}"
    words = [f"{len(project.nodes)} nodes", f"{len(project.messages)} messages", f"{project.bitrate} kbit/s",
             f"manager {manager}{name}", f"SYNC each {sync:,} us{counted}" if sync else "no SYNC",
             f"SDO timeout {timeout} ms"]
    words += [f"heartbeat of the manager each {heartbeat} ms"] if heartbeat else []
    words += [f"TIME each {project.time[0]:,} us, from {day_text(project.time[1])} on"] if project.time else []
    return [title, "; ".join(words)]


def nodes_table(network):
    def row(number):
        node, (name, eds) = network.nodes[number], network.project.nodes[number]
        info = node.device.sections.get("deviceinfo", {})
        params = sum(not pdo_values.is_of_pdos(key[0]) for key in node.written)
        about = [info.get("vendorname", NONE), info.get("productname", NONE), device_type(node)]
        return [number, name, eds, *about, need_of(network.project, number), params]

    columns = ["Node", "Name", "Data sheet", "Vendor", "Product", "Device type", "Need", "Parameters"]
    return Table("nodes", "Nodes", columns, [row(number) for number in sorted(network.nodes)])


def need_of(project, node):
    """Whether the manager waits for a node before it starts the network, or the node is the manager."""
    return "manager" if node == project.controller else "mandatory" if node in project.mandatory else "optional"


def device_type(node):
    kind = node.number_at(0x1000, 0, 0x07)
    return NONE if kind is None else f"{kind:08X}h"


def message_name(network, tpdo):
    return network.message_of(tpdo) or "(by default)"


def within(milliseconds):
    """Within which time a receiver expects a frame, in words behind others, "" where it expects none."""
    return f", within {milliseconds} ms" if milliseconds else ""


def receiver_text(network, pdo):
    """Who takes a message by which RPDO, and within which time a frame is expected."""
    return f"{network.name(pdo.node)} (RPDO {pdo.number}{within(pdo.event)})"


def receivers_text(network, tpdo):
    return ", ".join(receiver_text(network, pdo) for pdo in network.receivers(tpdo)) or NONE


def messages_table(network):
    def row(tpdo):
        return [f"{tpdo.identifier:03X}h", message_name(network, tpdo), network.name(tpdo.node), tpdo.number,
                NONE if tpdo.kind is None else tpdo.kind, when(tpdo), milliseconds(tpdo.inhibit), tpdo.event or NONE,
                tpdo.start or NONE, tpdo.size, receivers_text(network, tpdo)]

    columns = ["COB-ID", "Message", "Sender", "TPDO", "Type", "Sent", "Inhibit [ms]", "Event [ms]", "SYNC start",
               "Bytes", "Receivers"]
    return Table("messages", "Messages", columns, [row(tpdo) for tpdo in network.tpdos])


def bits_text(part):
    last = part.end - 1
    return f"{part.start}-{last}" if last > part.start else str(part.start)


def signal_rows(network, tpdo):
    """For each part of a TPDO and each RPDO that takes of it: bits, entry, name and type, and those of the receiver."""
    rows = []
    for part in tpdo.parts:
        sent = [bits_text(part), object_name(part.key), part.entry.name, type_name(part.entry.kind)]
        taken = [target_cells(network, part, *target) for target in network.targets(tpdo, part)]
        rows += [sent + cells for cells in taken or [[NONE] * 4]]
    return rows


def target_cells(network, part, pdo, other):
    """Who takes a part: the node, its RPDO, its entry, and the name of that."""
    is_same = (part.start, part.bits) == (other.start, other.bits)
    where = object_name(other.key) + ("" if is_same else f" takes bits {bits_text(other)}")
    return [network.name(pdo.node), pdo.number, where, other.entry.name]


SIGNAL_COLUMNS = ["Bits", "Entry", "Signal", "Data type", "Receiver", "RPDO", "Its entry", "Its name"]


def signals_table(network):
    rows = [[f"{tpdo.identifier:03X}h", message_name(network, tpdo), network.name(tpdo.node)] + cells
            for tpdo in network.tpdos for cells in signal_rows(network, tpdo)]
    return Table("signals", "Signals", ["COB-ID", "Message", "Sender"] + SIGNAL_COLUMNS, rows)


def parameters_table(network):
    """What the concise DCFs write but for PDOs."""
    rows = []
    for number, node in sorted(network.nodes.items()):
        for key, data in node.written.items():
            if not pdo_values.is_of_pdos(key[0]):
                entry = node.device.entries[key]
                default = value_text(entry.kind, values.default_of(entry, number))
                value = value_text(entry.kind, data)
                rows.append([number, network.name(number), object_name(key), entry.name, value, default])
    return Table("parameters", "Parameters", ["Node", "Name", "Entry", "Parameter", "Value", "Default"], rows)


def producers(network):
    """The heartbeat times in milliseconds of the manager and the nodes that send one; the controller's is the manager's."""
    times = {number: node.heartbeat for number, node in network.nodes.items()}
    times[network.project.manager[0]] = network.project.manager[2]
    return {number: time for number, time in times.items() if time}


def consumers(network):
    """Who watches whom, and for how many milliseconds: watched, watching and time of each."""
    return sorted((watched, number, time) for number, node in network.nodes.items() for watched, time in node.watched)


def heartbeats_table(network):
    times, rows = producers(network), []
    known = set(network.nodes) | {network.project.manager[0]}
    watched = consumers(network)
    for number in sorted(set(times) | {each[0] for each in watched}):
        name = network.name(number) if number in known else "(not in the project)"
        sent = [number, name, times.get(number, NONE)]
        watching = [[network.name(by), time] for each, by, time in watched if each == number]
        rows += [sent + cells for cells in watching or [[NONE, NONE]]]
    return Table("heartbeats", "Heartbeats", ["Node", "Name", "Each [ms]", "Watched by", "Missed after [ms]"], rows)


def left_out_table(network):
    """The messages that have errors."""
    rows = [[name, network.name(network.project.messages[name].node), " ".join(codes)]
            for name, codes in sorted(network.faults.items())]
    return Table("left-out", "Messages that are in no PDO, as they have errors", ["Message", "Sender", "Errors"], rows)


TABLES = {"nodes": nodes_table, "messages": messages_table, "signals": signals_table, "parameters": parameters_table,
          "heartbeats": heartbeats_table, "left-out": left_out_table}


def tables_of(network, wanted=None):
    """All tables of a network, or the wanted one; messages that are left out have one where there are some."""
    if wanted:
        return [TABLES[wanted](network)]
    return [make(network) for key, make in TABLES.items() if key != "left-out" or network.faults]
