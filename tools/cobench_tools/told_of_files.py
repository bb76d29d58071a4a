"""What there is to tell of the DCFs of an existing machine but for its PDOs and values: of SYNC, of the manager, and of its files."""
from . import manager_objects
from .device import object_name
from .machine_manager import MANAGER_KEY, sends_sync
from .node_values import MOST_NAMED, NOTE, WARNING
from .values import default_of


def of_commissioning(file, bitrate, is_own):
    """What of the commissioning section a script can't say; that the manager runs in the node it can."""
    told = []
    if file.bitrate not in (None, bitrate):
        network = f"the network has {bitrate}" if bitrate else "cobench has no such bit rate"
        told.append((file.line, WARNING, f"Baudrate is {file.bitrate} kbit/s; {network}"))
    dropped = [each for each in file.dropped if not (is_own and each[1] == MANAGER_KEY)]
    if dropped:
        names = ", ".join(f"{key}={value} (line {line})" for line, key, value in dropped)
        told.append((dropped[0][0], WARNING, f"the script has no word for what the commissioning section says besides: {names}"))
    return told


def of_controller(controller, settings):
    """What there is to tell of the device that the manager runs in, of its own file."""
    if controller.is_beside:
        return []
    told = [(line, NOTE, words) for line, words in controller.notes(settings.manager[1]) + controller.guess()]
    return told + [(line, WARNING, words) for line, words in controller.strangers(settings.nodes)]


def of_second_sync(file):
    """That a device sends SYNC beside the manager."""
    line = file.device.entries[manager_objects.SYNC].line if sends_sync(file) else 0
    return [(line, WARNING, "it sends SYNC (1005h), and by the script the manager does: both do")] if line else []


def of_uploads(file, is_own):
    """What there is to tell of the files that a DCF names for the concise DCFs of nodes."""
    if not file.uploads:
        return []
    names = entries_text(((manager_objects.CONCISE_DCFS, sub), line) for sub, line in file.uploads.items())
    why = "as cobtool export names those that it makes" if is_own else "as no script can name them"
    return [(min(file.uploads.values()), NOTE if is_own else WARNING, f"files are not taken over, {why}: {names}")]


def entries_text(entries):
    """Some entries with their lines in words."""
    several = list(entries)
    more = f" and {len(several) - MOST_NAMED} more" if len(several) > MOST_NAMED else ""
    return ", ".join(f"{object_name(key)} (line {line})" for key, line in several[:MOST_NAMED]) + more


def of_master(file, taken):
    """What is lost of a DCF that an export made for the master, beside that of the node, of which the script is made."""
    own = next(each for each in taken.files if each.number == file.number)
    made = dict(taken.wanted)
    made.update(manager_objects.consumers(taken.settings, own.node, taken.nodes()).values if taken.controller else {})
    lost = [(key, file.device.entries[key].line) for key, data in sorted(file.node.written.items())
            if data != value_of(own, key) and made.get(key) != int.from_bytes(data, "little")]
    words = f"not taken over, as the script is made of {own.path}: {entries_text(lost)}"
    return [(file.path, min(line for _, line in lost), WARNING, words)] if lost else []


def value_of(file, key):
    """The bytes that an entry has by a file, None where it isn't there."""
    entry = file.device.entries.get(key)
    return file.node.written.get(key, default_of(entry, file.number)) if entry else None


def of_rivals(files):
    """That one of several devices may be the one that the manager runs in."""
    names = ", ".join(f"{file.number} {file.name}" for file in files)
    words = f"the manager may run in each of the nodes {names}, and is taken to run in none: --manager N says in which"
    return [(file.path, file.line, WARNING, words) for file in files[:1]]
