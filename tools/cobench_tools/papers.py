"""What a page for a machine's papers says of itself: when it was made, of which version of which script, and what is wrong."""
import os
import time
from typing import Any, Dict, List, Optional, Set

from . import VERSION, safe_text, tool
from .findings import lines_of
from .report import Report
from .safe_text import markup
from .script import beside
from .versions import git

EPOCH = "SOURCE_DATE_EPOCH"     # by this variable whoever wants pages that can be made again to the byte says when they are made
QUIETLY = "-c", "core.fsmonitor=false", "--no-optional-locks"


def moment() -> str:
    """When a page is made."""
    given = os.environ.get(EPOCH, "")
    at = time.gmtime(int(given)) if given.isdecimal() else time.localtime()
    return time.strftime("%Y-%m-%d %H:%M", at)


def files_of(report: Optional[Report], path: str) -> List[str]:
    """The script, and all that it takes in."""
    files: Set[str] = {path}
    for command, _ in report.answered.pairs if report else ():
        files |= {command.path} | ({beside(command.path, command.file)} if command.file else set())
    return sorted(files - {"-"})


def version_of(path: str, files: List[str]) -> str:
    """The version of a script that git has: its tag or commit, the day of that, and whether anything was changed since; else ""."""
    folder = os.path.dirname(os.path.abspath(path))
    names = [os.path.abspath(name) for name in files]
    try:
        git(folder, *QUIETLY, "ls-files", "--error-unmatch", "--", os.path.abspath(path))
        name = git(folder, *QUIETLY, "describe", "--tags", "--always").decode().strip()
        day = git(folder, *QUIETLY, "log", "-1", "--format=%cs").decode().strip()
        is_changed = bool(git(folder, *QUIETLY, "status", "--porcelain", "--", *names))
    except tool.Fault:
        return ""
    return f"version {name} of {day}" + (", with changes not committed" if is_changed else "")


def made_of(path: Optional[str], report: Optional[Report] = None) -> str:
    """When a page was made, by what, and of which version of which script."""
    made = f"made on {moment()} by cobtool {VERSION}"
    if path is None:
        return made
    version = version_of(path, files_of(report, path)) if path != "-" else ""
    return f"{made} of {safe_text.readable(os.path.basename(tool.name_of(path)))}" + (f", {version}" if version else "")


def wrong_section(report: Report) -> str:
    """What is wrong, as a section of a page."""
    lines = [f'<p class="{each.severity}">{markup(line)}</p>\n' for each in report.open for line in lines_of([each])]
    return f"<section>\n<h2>What is wrong</h2>\n<p>{markup(report.summary())}</p>\n{''.join(lines)}</section>\n"


def content_of(path: Optional[str], report: Optional[Report]) -> Dict[str, Any]:
    """The same for a page that draws itself."""
    wrong = [[each.severity, line] for each in report.open for line in lines_of([each])] if report else []
    return {"made": made_of(path, report), "counts": report.summary() if report else "", "wrong": wrong}
