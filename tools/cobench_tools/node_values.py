"""The values that a node's DCF gives: those that become parameters, and what is told of the others."""
import re

from . import values
from .data_types import type_name
from .device import object_name
from .pdo_values import is_of_pdos

WARNING, NOTE = "warning", "note"
LONGEST_TEXT = 4000
MOST_NAMED = 8


class NodeValues:
    """The values of a DCF that are none of PDOs.

    parameters  the entry and the text of each that a script sets, by index and sub-index
    told        what a script can't say, or needn't: a line, `warning` or `note`, and words each
    lost        how many values no script sets

    `made` are the numbers of entries that an export makes of the network by itself.
    """

    def __init__(self, file, with_defaults, made):
        self.file, self.parameters, self.told = file, [], []
        unset, equal, kept, again = {}, [], {}, []
        for key, entry in sorted(file.device.entries.items()):
            why = self._why_not(key, entry) if entry.value else None
            if entry.value and self._stays(key, entry):
                kept.setdefault(entry.kind, []).append((entry.line, key))
            elif why:
                unset.setdefault(why, []).append((entry.line, key))
            elif not entry.value or is_of_pdos(key[0]) or not entry.is_writable():
                continue
            elif self._is_default(key, entry) and not (with_defaults or file.is_export):
                equal.append((entry.line, key))
            elif key in made and made[key] == int.from_bytes(file.node.written[key], "little") and not with_defaults:
                again.append((entry.line, key))
            else:
                self.parameters.append((key, entry.value))
        self.lost = sum(map(len, [*unset.values(), *kept.values()]))
        for why, several in unset.items():
            self._tell(WARNING, several, f"not taken over, as {why}")
        for kind, several in kept.items():
            self._tell(WARNING, several, "kept in the data sheet, and so in the DCF (E16), but not written, as of "
                       f"{type_name(kind)}, a data type that cobench doesn't write")
        self._tell(NOTE, again, "no parameter is needed, as the network makes the same value (--all makes one)")
        self._tell(NOTE, equal, "no parameter is needed for the default's value (--all makes one)")

    def _stays(self, key, entry):
        """Whether a value stays in the data sheet, as cobench doesn't model its type."""
        return not entry.is_modelled and not is_of_pdos(key[0])

    def _is_default(self, key, entry):
        return self.file.node.written.get(key) == values.default_of(entry, self.file.number)

    def _why_not(self, key, entry):
        """Why a value can't be set, or None; the value that an entry can't but have needs no word."""
        data = self.file.node.written.get(key)
        if is_of_pdos(key[0]):
            return f"no value of {type_name(entry.kind)}" if data is None else None
        if not entry.is_writable():
            return None if self._is_default(key, entry) else "read only, and not the default"
        if data is None:
            return f"no value of {type_name(entry.kind)}"
        if len(entry.value) > LONGEST_TEXT or re.search("[\x00-\x08\x0a-\x1f]", entry.value):
            return "a text that no command can have"
        return None if self._is_within(entry) else "beyond the limits of the data sheet"

    def _is_within(self, entry):
        """Whether a value is within the limits of its entry."""
        low, high = values.limits_of(entry, self.file.number)
        if low is None and high is None:
            return True
        number = values.number_of(entry.kind, entry.value, self.file.number)
        return (low is None or low <= number) and (high is None or number <= high)

    def _tell(self, severity, several, what):
        """Tells of values, if there are some, at the line of the first of them."""
        several = sorted(several)
        names = ", ".join(f"{object_name(key)} (line {line})" for line, key in several[:MOST_NAMED])
        more = f" and {len(several) - MOST_NAMED} more" if len(several) > MOST_NAMED else ""
        self.told += [(line, severity, f"{what}: {names}{more}") for line, _ in several[:1]]
