"""Whether the files of a folder are those that one export wrote, and that the script makes now."""
import os
from typing import Dict, List, Optional, Tuple

from . import manifest, tool
from .findings import Finding

MIX, EDITED, STALE, MISSING = "mix", "edited", "stale", "missing"
OF_FOLDER = {
    MISSING: "isn't there; cobtool export writes it. The files are compared with what the script makes",
    EDITED: "isn't as cobtool export writes it. The files are compared with what the script makes",
    MIX: "an export was interrupted here: what it wrote stands beside what was there before; export again",
}


def findings_of(folder: str, made: Dict[str, bytes]) -> List[Finding]:
    """The findings on the files of a folder, of which the script makes these now: one of each file that is another."""
    if not os.path.isdir(folder):
        raise tool.Fault(f"{folder}: there is no such folder")
    state, listed = state_of(folder)
    judge = Judge(folder, made, listed)
    there = filter(manifest.NODE_FILE.fullmatch, os.listdir(folder))
    names = sorted({*made, *listed.files, *there})
    found = [finding(folder, manifest.NAME, 1, state, OF_FOLDER[state])] if state else []
    return found + [each for each in map(judge.finding_of, names) if each]


def state_of(folder: str) -> Tuple[Optional[str], manifest.Manifest]:
    """What is wrong with the manifest of a folder, None where nothing is, and the manifest, else an empty one."""
    empty = manifest.Manifest("", {}, None)
    try:
        listed = manifest.read(folder)
    except manifest.Damaged:
        return EDITED, empty
    if not listed:
        return MISSING, empty
    return (MIX if listed.before is not None else None), listed


def finding(folder: str, name: str, line: int, code: str, text: str) -> Finding:
    return Finding(tool.Place(os.path.join(folder, name), line), f"{code} {name}", "files", "", text)


def first_difference(there: bytes, made: bytes) -> int:
    """The first line of a file that the script makes otherwise."""
    lines, others = there.split(b"\n"), made.split(b"\n")
    different = (number for number, (line, other) in enumerate(zip(lines, others), 1) if line != other)
    return next(different, min(len(lines), len(others)))


class Judge:
    """Judges the files of a folder, by its manifest and by what the script makes now."""

    def __init__(self, folder: str, made: Dict[str, bytes], listed: manifest.Manifest):
        self.folder, self.made, self.listed = folder, made, listed

    def finding_of(self, name: str) -> Optional[Finding]:
        """What is wrong with a file, None where nothing is."""
        there = manifest.content_of(self.folder, name)
        if there is None:
            return finding(self.folder, name, 1, MISSING, "isn't there") if name in (*self.made, *self.listed.files) else None
        code, text = self._judgement(name, there)
        is_text = not name.endswith(".bin") and name in self.made
        line = first_difference(there, self.made[name]) if is_text else 1
        return finding(self.folder, name, line, code, text) if code else None

    def _judgement(self, name: str, there: bytes) -> Tuple[Optional[str], str]:
        """The code and the text of what is wrong with a file that is there, None where nothing is."""
        now, listed, before = manifest.digest_of(there), self.listed.files.get(name), self.listed.before or {}
        if listed not in (now, None) and before.get(name) == now:
            return MIX, "is of before the export that was interrupted"
        if listed not in (now, None):
            return EDITED, "isn't as it was exported"
        if name not in self.made:
            return STALE, "is of no node of the script"
        return (None, "") if self.made[name] == there else (STALE, "isn't what the script makes now")
