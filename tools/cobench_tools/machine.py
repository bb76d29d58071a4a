"""The script of an existing machine, of the DCFs of its nodes."""
import os

from . import manager_objects, safe_text, told_of_files, tool
from .joined import MOST_MESSAGES, free_name
from .limits import RATES
from .machine_manager import controller_of, is_controller, number_of
from .taken_over import LAST_NODE, read_files, taken_best
from .wiring import RPDO

MOST_SHEETS = 64


def comment(text):
    """A comment line."""
    return f"# {safe_text.readable(text)}"


class Machine:
    """The nodes of several DCFs, with the messages between them.

    sheets  the data sheets by their names, each the lines of the first file that has it
    joined  the messages
    told    what a script can't say, or needn't: FILE, line, `warning` or `note`, and words each

    `given` is the number of the node that the manager runs in, 0 for none of them, None where the files have to show it.
    """

    def __init__(self, paths, with_defaults, given=None):
        files, masters = read_files(paths, 3)
        self.controller, rivals = controller_of(files, masters, given)
        if len(files) == LAST_NODE and not self.controller:
            raise tool.Fault(f"{LAST_NODE} nodes leave no number for the manager; --manager N says in which of them it runs")
        taken = taken_best(files, self.controller, paths, with_defaults)
        self.files, self.joined, self.values, self.settings = taken.files, taken.joined, taken.values, taken.settings
        self.is_asked = given is None and not self.controller
        self.sheets, self.sheet_of = {}, {}
        self._share_sheets()
        if len(self.joined.drafts) > MOST_MESSAGES:
            raise tool.Fault(f"they have {len(self.joined.drafts):,} messages, and cobench takes {MOST_MESSAGES:,}")
        self.bitrate = next((file.bitrate for file in self.files if file.bitrate in RATES), None)
        self.told = [(file.path, *each) for file in self.files for each in sorted(taken.pdos[file.number] + self._told_of(file))]
        self.told += [told for file in masters.values() for told in told_of_files.of_master(file, taken)] + told_of_files.of_rivals(rivals)

    def _told_of(self, file):
        """What there is to tell of a file but for its PDOs: a line, `warning` or `note`, and words each."""
        is_own = is_controller(self.controller, file)
        told = self.values[file.number].told + told_of_files.of_commissioning(file, self.bitrate, is_own)
        told += told_of_files.of_uploads(file, is_own)
        if is_own:
            return told + told_of_files.of_controller(self.controller, self.settings)
        return told + (told_of_files.of_second_sync(file) if self.settings.manager[1] else [])

    def _share_sheets(self):
        """Nodes with equal data sheets have one name for it."""
        names, known = set(), {}
        for file in self.files:
            content = file.content()
            if content not in known:
                known[content] = free_name(file.sheet_name(), names)
                self.sheets[known[content]] = file.sheet
            self.sheet_of[file.number] = known[content]
        if len(self.sheets) > MOST_SHEETS:
            raise tool.Fault(f"they have {len(self.sheets)} data sheets, and cobench takes {MOST_SHEETS}")

    # The script.

    def lines(self, folder):
        """The lines of the script, as bytes; with a folder the data sheets are taken from the files there."""
        names = ", ".join(os.path.basename(file.path) for file in self.files)
        lines = [comment(f"made of {names} by cobtool import")] + self._settings()
        for name, sheet in self.sheets.items():
            block = [f"eds {name} {len(sheet)}", *map(tool.shown, sheet)]
            lines += ["#"] + ([f"eds {name} <{os.path.join(folder, name)}.eds"] if folder else block)
        for file in self.files:
            lines += self._node(file)
        takers = self._takers_by_default()
        for draft in self.joined.drafts:
            lines += message_lines(draft)
            lines += [comment(f"RPDO {number} of {file.name} takes it too, by the defaults of the data sheet")
                      for file, number in takers.get(draft.tpdo.identifier, []) if file.number != draft.tpdo.node]
        return [line.encode("utf-8", "surrogateescape") for line in lines]

    def _settings(self):
        lines = [f"version {self.joined.version}"] if self.joined.version > 1 else []
        lines += [f"bitrate {self.bitrate}"] if self.bitrate else []
        number, sync, heartbeat, timeout = self.settings.manager
        if self.is_asked:
            lines.append(comment("no file shows in which node the manager runs, so it has a number of its own here; --manager N names the node"))
        if not sync:
            lines.append(comment("no file says how often SYNC comes: the second number below, in microseconds"))
        if self.controller and manager_objects.HEARTBEAT not in self.controller.file.device.entries:
            lines.append(comment("no file says how often the manager's heartbeat comes: the third number below, in milliseconds"))
        lines.append(f"manager {number} {sync} {heartbeat} {timeout}")
        lines += [comment(f"{file.name} sends TIME (1012h), and no file says how often: time-period US DAYS, of version 3")
                  for file in self.files if number_of(file, manager_objects.TIME) & manager_objects.PRODUCER]
        lines += [f"sync-counter {self.settings.sync_counter}"] if self.settings.sync_counter else []
        return lines

    def _node(self, file):
        lines = ["#", comment(file.path)]
        if is_controller(self.controller, file):
            signs = f" ({', '.join(self.controller.signs)})" if self.controller.signs else ""
            lines.append(comment(f"the manager runs in it{signs}"))
        elif file.is_manager:
            lines.append(comment("it is the CANopen manager of its network; here the manager is a node of its own"))
        lines.append(f"node {file.number} {file.name} {self.sheet_of[file.number]}")
        lines += [f"need {file.number} mandatory"] if file.number in self.settings.mandatory else []
        return lines + [f"param {file.number} {key[0]:04X} {key[1]:X} {text}"
                        for key, text in self.values[file.number].parameters]

    def _takers_by_default(self):
        """The RPDOs that are on without a value in a file: their nodes' files and their numbers, by identifier. In version 3
        what can be is off, and `diag` has the others (W24)."""
        found = {}
        for file in self.files if self.joined.version < 3 else ():
            set_ones = {pdo.number for pdo in file.set_pdos(RPDO)}
            for pdo in file.on_pdos(RPDO):
                if pdo.number not in set_ones:
                    found.setdefault(pdo.identifier, []).append((file, pdo.number))
        return found

    def script(self, folder=None):
        return b"".join(line + b"\n" for line in self.lines(folder))

    def sheet_files(self):
        """The files of the data sheets: their names and contents."""
        return {f"{name}.eds": b"".join(line + b"\n" for line in lines) for name, lines in self.sheets.items()}


def message_lines(draft):
    """The commands of a message."""
    tpdo, message = draft.tpdo, draft.message()
    lines = ["#", f"message {draft.name} {tpdo.node} {tpdo.number} {' '.join(message.words)}"]
    lines += [f"start {draft.name} {message.start}"] if message.start else []
    lines += [f"source {draft.name} {position} {key[0]:04X} {key[1]:X}" for position, key in message.sources.items()]
    lines += [f"sink {draft.name} {position} {node} {key[0]:04X} {key[1]:X}"
              for (position, node), key in sorted(message.sinks.items())]
    return lines + [f"receive {draft.name} {node} {number} {time}" for node, (number, time) in sorted(message.receives.items())]
