"""The files of a network: what cobench answers for a script, each by the name that `export` gives it."""
import subprocess
from typing import Dict, List, Optional

from . import concise, manifest, master_file, safe_text, session, tool, trace
from .logs import writers

LONGEST_WAIT = 10.0     # seconds in which cobench says its version


def text_of(lines) -> bytes:
    return b"".join(line + b"\n" for line in lines)


def log_of(answered) -> str:
    """The frames of the trace as a log."""
    return writers.log_of(trace.frames_of(trace.of_answer(answered.lines("trace"))), "log", trace.LOG_START)


def files_of(answered, master: Optional[master_file.MasterFile]) -> Dict[str, bytes]:
    """The name and the bytes of each file of a network, with that for its master where there is one."""
    files = {}
    for node, (name, _) in sorted(answered.project.nodes.items()):
        files[f"{node}_{name}.dcf"] = text_of(answered.lines("dcf", node))
        files[f"{node}_{name}.bin"] = concise.bytes_of(answered.lines("cdcf", node))
    if master and master.data is not None:
        files[master.name] = master.data
    files["diagnostics.txt"], files["trace.txt"] = text_of(answered.lines("diag")), text_of(answered.lines("trace"))
    files["trace.log"] = log_of(answered).encode()
    return files


def script_digest(answered) -> str:
    """The digest of the commands of a script, with all that it takes in."""
    return manifest.digest_of(b"".join(command.text() for command, _ in answered.pairs))


def version_of(words: List[str]) -> Optional[str]:
    """What a cobench says to `--version`, None where it says nothing."""
    try:
        done = subprocess.run(words + ["--version"], stdin=subprocess.DEVNULL, stdout=subprocess.PIPE,
                              stderr=subprocess.DEVNULL, timeout=LONGEST_WAIT)
    except (OSError, subprocess.TimeoutExpired):
        return None
    said = safe_text.readable(tool.shown(done.stdout[:200])).split("\n")[0].strip()
    return said if done.returncode == 0 and said.isprintable() and said else None


def source_of(answered, script: str, given: Optional[str]) -> manifest.Source:
    """What the files of a session are made of."""
    return manifest.Source(script, script_digest(answered), version_of(session.program(given)))
