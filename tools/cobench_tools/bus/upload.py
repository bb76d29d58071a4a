"""Reads what a device holds, as far as its data sheet says how."""
from typing import Callable, Dict, List, Set, Tuple

from ..device import Entry
from ..pdo_values import is_of_pdos
from ..wiring import RPDO, Node
from . import value
from .known import Known
from .sdo_client import SdoClient
from .transfer import Aborted, Key

# Objects that are no parameters: errors so far, storing and restoring, stored files, programs.
NO_PARAMETERS = {0x1003, 0x1010, 0x1011, *range(0x1021, 0x1027), *range(0x1F50, 0x1F60)}
FIRST_MAPPING = (0x1600, 0x1A00)


def is_parameter(key: Key, entry: Entry) -> bool:
    """Whether the value of an entry is one that a DCF sets."""
    is_set = entry.is_writable() or is_of_pdos(key[0])
    return is_set and entry.access != "wo" and key[0] not in NO_PARAMETERS and entry.kind in value.KINDS.values()


class Upload:
    """The values of a device.

    values   the bytes of each entry that was read
    told     what is to be told: the line of the data sheet and words each
    process  the entries that its RPDOs write, which are no parameters
    """

    def __init__(self, known: Known, client: SdoClient) -> None:
        self.known, self.client, self.device = known, client, known.sheet()
        self.values: Dict[Key, bytes] = {}
        self.told: List[Tuple[int, str]] = []
        self.process: Set[Key] = set()

    def _parameters(self) -> List[Tuple[Key, Entry]]:
        return [(key, entry) for key, entry in sorted(self.device.entries.items()) if is_parameter(key, entry)]

    def count(self) -> int:
        """How many entries there are to be read."""
        return len(self._parameters())

    def run(self, step: Callable[[], None] = lambda: None) -> "Upload":
        """Reads all; a device that doesn't answer ends it."""
        for key, entry in self._parameters():
            if not self._is_unused(key):
                self._read(key, entry)
            step()
        self._leave_out_process()
        return self

    def _is_unused(self, key: Key) -> bool:
        """Whether an entry of a mapping is behind those that count."""
        is_mapping = any(first <= key[0] < first + 0x200 for first in FIRST_MAPPING)
        count = self.values.get((key[0], 0))
        return is_mapping and key[1] > 0 and count is not None and key[1] > int.from_bytes(count, "little")

    def _read(self, key: Key, entry: Entry) -> None:
        try:
            data = self.client.read(key, value.size_of(entry.kind))
        except Aborted as why:
            if why.is_own:
                raise
            self._tell(entry, key, f"{why.text}; the DCF has no value of it")
            return
        text = value.sheet_text(entry.kind, data)
        if text:
            self.values[key] = data
        elif text is None or entry.default:
            shown = data.hex(" ").upper() or "no byte"
            self._tell(entry, key, f"{shown} is no text that a DCF can have; it has no value of it")

    def _tell(self, entry: Entry, key: Key, text: str) -> None:
        self.told.append((entry.keys.line, f"{self.known.entry_name(key)}: {text}"))

    def _leave_out_process(self) -> None:
        """What an RPDO of the device writes is a value of its process."""
        node = Node(self.known.number, self.device, self.values)
        self.process = {part.key for pdo in node.pdos(RPDO) for part in pdo.parts if part.entry is not None}
        for key in self.process:
            self.values.pop(key, None)

    def texts(self) -> Dict[Key, str]:
        """The values as a DCF has them."""
        found = {key: value.sheet_text(self.device.entries[key].kind, data) for key, data in self.values.items()}
        return {key: text for key, text in found.items() if text is not None}
