"""Which device of an existing machine the manager runs in, and what the DCF of that says of the manager."""
import os

from . import manager_objects as objects
from . import tool
from .device import object_name

UNSIGNED16, UNSIGNED32 = objects.UNSIGNED16, objects.UNSIGNED32
LEAST_SYNC, LONGEST_SYNC = 1_000, 10_000_000
MASTER = "_master"          # behind the name of a DCF that an export made for the master
MANAGER_KEY = "CANopenManager"


def number_of(file, key):
    """The number of an entry in a file, 0 where it isn't there with its type."""
    return file.node.number_at(*key, objects.kind_of(key)) or 0


def may_send_sync(file):
    """Whether a device is the one that sends SYNC, where it has a period."""
    return bool(number_of(file, objects.SYNC) & objects.PRODUCER)


def sends_sync(file):
    return may_send_sync(file) and number_of(file, objects.SYNC_PERIOD) > 0


def sync_of(file):
    """The microseconds from SYNC to SYNC by a file, None where it sends none, or none that a script can have."""
    period = number_of(file, objects.SYNC_PERIOD)
    return period if sends_sync(file) and LEAST_SYNC <= period <= LONGEST_SYNC else None


# By what the device is told that the manager runs in, in the order in which that counts.
SIGNS = (
    ("1F80h", lambda file: number_of(file, objects.STARTUP) & objects.IS_MASTER),
    ("1F81h", lambda file: objects.assigned(file.node)),
    (MANAGER_KEY, lambda file: file.is_manager),
    ("1005h", may_send_sync),
)


def is_controller(controller, file):
    """Whether a file is of the node that the manager runs in."""
    return controller is not None and file.number == controller.number


def stem(file):
    return os.path.splitext(os.path.basename(file.path))[0]


def paired(files):
    """The files but for those that an export made for a master beside the DCF of the same node, and these, by their nodes."""
    names = {(file.number, stem(file)) for file in files}
    masters = {file.number: file for file in files
               if stem(file).endswith(MASTER) and (file.number, stem(file)[:-len(MASTER)]) in names}
    return [file for file in files if file not in masters.values()], masters


class Controller:
    """The device that the manager runs in.

    number  its number
    file    the DCF that says what the manager does: its own, or the one of the master beside that
    signs   by what it is found, by whoever looks for it

    `is_given` says that the user named it, `is_beside` that the file is that of the master.
    """

    def __init__(self, file, is_given, is_beside):
        self.number, self.file, self.is_given, self.is_beside = file.number, file, is_given, is_beside
        self.signs = [name for name, has in SIGNS if has(file)]

    @property
    def sync(self):
        """The microseconds from SYNC to SYNC, None where its file doesn't say it."""
        return sync_of(self.file)

    @property
    def heartbeat(self):
        """The milliseconds from heartbeat to heartbeat, 0 for none."""
        return number_of(self.file, objects.HEARTBEAT)

    def mandatory(self, numbers):
        """Those of these nodes without which the manager doesn't start the network."""
        assigned = objects.assigned(self.file.node)
        return {node for node in numbers if node != self.number and assigned.get(node, 0) & objects.MANDATORY}

    # What there is to tell.

    def notes(self, sync):
        """What its file doesn't say, and the script has to: a line and words each; `sync` is the period that the script has, 0 for none."""
        entries, found = self.file.device.entries, []
        lacking = [object_name(key)[:5] for key in (objects.SYNC, objects.SYNC_PERIOD) if key not in entries]
        if lacking and not sync:
            found.append(f"it has no {' and '.join(lacking)}, so it doesn't say how often SYNC comes: give it as SYNC_US of manager {self.number}, "
                         "in microseconds")
        period = number_of(self.file, objects.SYNC_PERIOD)
        if sends_sync(self.file) and self.sync is None:
            found.append(f"1006h is {period:,}, and SYNC_US of manager {self.number} is 0 or {LEAST_SYNC:,} to {LONGEST_SYNC:,} microseconds")
        if objects.HEARTBEAT not in entries:
            found.append(f"it has no 1017h, so it doesn't say how often the manager's heartbeat comes: give it as HB_MS of manager {self.number}, "
                         "in milliseconds")
        return [(self.file.line, words) for words in found]

    def guess(self):
        """That it was found by SYNC alone, as a line and words each."""
        if self.is_given or self.signs != ["1005h"]:
            return []
        line = self.file.device.entries[objects.SYNC].line
        return [(line, "it is to send SYNC (1005h), so the manager is taken to run in it; --manager N says another node, --manager 0 that it runs in none")]

    def strangers(self, numbers):
        """The nodes of its list of which there is no file, as a line and words each."""
        missing = sorted(set(objects.assigned(self.file.node)) - set(numbers) - {self.number})
        names = ", ".join(map(str, missing))
        line = self.file.device.entries[objects.ASSIGNMENTS, missing[0]].line if missing else 0
        return [(line, f"1F81h has nodes of which there is no file: {names}")] if missing else []


def controller_of(files, masters, given):
    """The device that the manager runs in, and those between which it can't be told: None, and none where all is told.

    masters  the files that an export made for a master, by their nodes
    given    the number that the user gives, 0 for a manager of its own, None for what the files say
    """
    by_number = {file.number: masters.get(file.number, file) for file in files}
    if given:
        if given not in by_number:
            there = ", ".join(map(str, by_number))
            raise tool.Fault(f"--manager {given}: there is no file of node {given}; there are files of: {there}")
        return Controller(by_number[given], True, given in masters), []
    if given == 0:
        return None, []
    rest, is_told = list(by_number.values()), False
    for _, has in SIGNS:
        found = [file for file in rest if has(file)]
        rest, is_told = found or rest, is_told or bool(found)
    if not is_told:
        return None, []
    return (Controller(rest[0], False, rest[0].number in masters), []) if len(rest) == 1 else (None, rest)
