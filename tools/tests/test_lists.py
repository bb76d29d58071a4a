"""Lists of the tools that nothing else asks for: each edit, each setting and each message has to be in all of them."""
import os
import re
import sys
from types import SimpleNamespace

from helper import ROOT, TOOLS, file, kept

REFERENCE = os.path.join(ROOT, "reference")
sys.path.append(REFERENCE)

from cobench_tools import difference, meaning, origins, traffic
from cobench_tools.forms import FORMS
from cobench_tools.live import edits
from cobench_tools.plan import LEAST_IDENTIFIER, SERVICES
from cobench_tools.project import Project
from cobench_tools.script import Command
from cobench_tools.wiring import is_restricted
from rules import frames
from rules.commands import FORMS as FORMS_OF_THE_RULES, QUERIES, command_of, eds_command
from rules.project import Project as ProjectOfTheRules

# A project that has each line that `project` can print; each setting with another value than that of the first project.
WHOLE = (b"version 3", b"bitrate 500", b"horizon 2000", b"manager 4 1000 7 30", b"time-period 1000 5", b"sync-counter 3", b"node 5 pump d",
         b"node 6 valve d", b"need 5 mandatory", b"param 5 2000 00 1", b"message m 5 1 1 0 0 000", b"start m 1", b"source m 1 2000 00",
         b"sink m 1 6 2000 00", b"receive m 6 0 20", b"event 1 0 nmt 1 0")
SETTINGS = {"version 3": "version of the script: 1 -> 3", "bitrate 500": "bit rate [kbit/s]: 1000 -> 500",
            "horizon 2000": "horizon [us]: 1000000 -> 2000", "manager 4 0 0 500": "number of the manager: 127 -> 4",
            "manager 127 1000 0 500": "SYNC each [us]: 0 -> 1000", "manager 127 0 7 500": "heartbeat of the manager [ms]: 0 -> 7",
            "manager 127 0 0 30": "SDO timeout [ms]: 500 -> 30", "time-period 1000 5": "TIME each [us]: none -> 1000",
            "sync-counter 3": "SYNC is counted to: none -> 3"}
MANDATORY = "version", "bitrate", "need"       # of which no finding names the line

# What waits at a node or at the manager in the plain program: a frame of it, its kind in a trace, and whether load lists it.
WAITING = {"boot-up": (0x705, "00", meaning.HEARTBEAT, True), "heartbeat": (0x705, "05", meaning.HEARTBEAT, True),
           "emergency": (0x085, "0010010000000000", meaning.EMCY, True), "sdo": (0x585, "6000200000000000", meaning.SDO, True),
           "tpdo": (0x185, "00", meaning.PDO, True), "nmt": (0x000, "0105", meaning.NMT, False),
           "time": (0x100, "010000000500", meaning.TIME, True), "sync": (0x080, "", meaning.SYNC, True)}


def lines_of_whole():
    """The lines that `project` prints of that project."""
    project = ProjectOfTheRules()
    for line in (WHOLE[0], None, *WHOLE[1:]):
        command = eds_command(b"eds d 2", [b"[2000]", b"DataType=5"], False) if line is None else command_of(line)
        project.accept(command.word, command.arguments)
    return project.script()


def test_the_tools_know_each_command_of_the_rules():
    words = {name.decode().split()[0] for name in FORMS_OF_THE_RULES} | {"eds"}
    assert set(FORMS) == words
    queries = {word.decode() for word in QUERIES}
    missing = [name for name in words - queries if not hasattr(Project, "_" + name.replace("-", "_"))]
    assert not missing, missing


def test_live_and_the_findings_know_each_line_of_a_project():
    printed = {line.split(b" ")[0] for line in lines_of_whole() if not line.startswith((b"[", b"DataType"))}
    assert printed == set(edits.KEY_WORDS), printed ^ set(edits.KEY_WORDS)
    assert {word.decode() for word in printed} == set(origins.PARTS) | set(MANDATORY)
    made = edits.edits(edits.first_project(), edits.items_of(lines_of_whole()))
    assert {edit.split(b" ")[0] for edit in made} == printed


def test_diff_tells_each_setting():
    first = Project()
    for line, told in SETTINGS.items():
        other = Project()
        other.take(Command("net.txt", 1, line.encode()))
        assert difference.settings(SimpleNamespace(project=first), SimpleNamespace(project=other))[:1] == [told], line
    settings = {word.decode() for word, count in edits.KEY_WORDS.items() if count == 0}
    assert settings == {line.split()[0] for line in SETTINGS}


def test_each_message_of_the_rules_has_its_kind_and_its_load():
    """Whoever adds a message to the plain program is asked here for its frame, its kind and whether it loads the bus."""
    purposes = set()
    for name in ("manager", "devices"):
        purposes |= set(re.findall(r'waiting\.(?:add|replace)\(\("([a-z-]+)"', file(REFERENCE, "rules", name + ".py").decode()))
    assert purposes == set(WAITING)
    network = meaning.Network()
    for identifier, digits, kind, _ in WAITING.values():
        said = network.of(SimpleNamespace(identifier=identifier, data=bytes.fromhex(digits)))
        assert said.kind == kind, (identifier, said.kind)
    assert {kind for _, _, kind, _ in WAITING.values()} == set(meaning.KINDS) - {meaning.OTHER}
    listed = {identifier for identifier, _, _, is_listed in WAITING.values() if is_listed}
    bases = {"EMCY": 0x085, "SDO": 0x585, "HEARTBEAT": 0x705, "SYNC": 0x080, "TIME": 0x100}
    assert all(getattr(traffic, name) & 0x780 == identifier & 0x780 for name, identifier in bases.items())
    assert listed == set(bases.values()) | {0x185}


def test_each_service_of_the_rules_is_named_where_no_message_may_have_its_identifier():
    services = [value for name, value in vars(frames).items() if name.isupper() and isinstance(value, int) and value < 0x800]
    assert len(services) == 7
    for value in services:
        node = 0 if value in (frames.NMT, frames.SYNC, frames.TIME) else 5
        assert any(low <= value + node <= high for low, high, _ in SERVICES), hex(value + node)
    for identifier in range(0x800):
        is_free = identifier >= LEAST_IDENTIFIER and not is_restricted(identifier)
        assert sum(low <= identifier <= high for low, high, _ in SERVICES) == (0 if is_free else 1), hex(identifier)


def test_each_kind_has_its_colours_by_day_and_by_night():
    design = file(TOOLS, "cobench_tools", "pages", "design.css").decode()
    for kind in meaning.KINDS:
        name = kind.lower()
        for colour in (f"--{name}: #", f"--{name}-ink: #", f"--on-{name}: #"):
            assert design.count(colour) == 2, colour
    assert len(meaning.KINDS) <= 8         # the bits of a byte in which the timeline keeps what a pixel has


def test_each_command_is_among_the_words_of_odd_scripts():
    """So that the long lists try it."""
    odd = re.findall(r'"([a-z-]+)"', kept("odd_scripts.py").decode())
    assert set(FORMS) <= set(odd), set(FORMS) - set(odd)
