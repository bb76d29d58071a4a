"""The faults of data sheets, each judged once as long as it stays the same."""
import functools

from .. import sheet_faults


class KeptFaults:
    """What is wrong with the data sheets of a project that is edited."""

    def __init__(self):
        self._faults = {}

    def of(self, evidence):
        """The findings of all data sheets."""
        known, self._faults, found = self._faults, {}, []
        for name, lines in sorted(evidence.project.texts.items()):
            sheet, before = evidence.sheet(name), known.get(name)
            faults = before[1] if before and before[0] is sheet else sheet_faults.faults_of(sheet, lines)
            self._faults[name] = sheet, faults
            found += sheet_faults.findings_of(name, faults, functools.partial(evidence.origins.sheet_place, name))
        return found
