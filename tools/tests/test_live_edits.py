"""`live`: the edits that lead from one project to another. Here a model of the project takes them; a test of all takes a cobench."""
import random

from cobench_tools import script, tool
from cobench_tools.hints import Hints
from cobench_tools.live.edits import edits, first_project, items_of, nodes_of_files
from cobench_tools.project import Project

NODES, SHEETS, NAMES, MESSAGES = range(1, 8), ["d", "e", "f", "g"], ["a", "b", "c", "x", "y"], ["m", "n", "o"]


def random_project(chance):
    """The lines that `project` prints of a random project in which much is named alike."""
    version, counter = chance.choice([1, 2, 3]), chance.choice([0, 0, 4, 240])
    nodes = dict(zip(chance.sample(NODES, chance.randint(0, 4)), chance.sample(NAMES, 5)))
    manager = chance.choice([each for each in [*NODES, 127] if version > 2 or each not in nodes])
    sheets = chance.sample(SHEETS, chance.randint(1, 4))
    lines = [f"version {version}"] if version > 1 else []
    lines += [f"bitrate {chance.choice([250, 1000])}", f"horizon {chance.choice([1000, 20000])}", f"manager {manager} {chance.choice([0, 1000])} 0 500"]
    lines += [f"time-period {chance.choice([1000, 2000])} {chance.choice([0, 7])}"] if version > 2 and chance.random() < .4 else []
    lines += [f"sync-counter {counter}"] if counter else []
    for sheet in sorted(sheets):
        block = [f"[{chance.choice([1017, 2000])}]", "DataType=6"][:chance.randint(1, 2)]
        lines += [f"eds {sheet} {len(block)}", *block]
    for node, name in sorted(nodes.items()):
        lines += [f"node {node} {name} {chance.choice(sheets)}"]
        lines += [f"need {node} mandatory"] if version > 1 and chance.random() < .4 else []
    lines += [f"param {node} {index} 00 {chance.randint(0, 3)}" for node in sorted(nodes) for index in ("1017", "2000") if chance.random() < .5]
    for name in sorted(chance.sample(MESSAGES, chance.randint(0, 3) if nodes else 0)):
        lines += random_message(chance, name, sorted(nodes))
        lines += [f"receive {name} {node} {chance.randint(0, 2)} {chance.choice([0, 20])}" for node in sorted(nodes)
                  if version > 2 and chance.random() < .4]
    return lines + random_events(chance, sorted(nodes))


def random_message(chance, name, nodes):
    lines = [f"message {name} {chance.choice(nodes)} {chance.randint(1, 2)} {chance.choice([1, 255])} 0 0 000"]
    lines += [f"start {name} {chance.randint(1, 3)}"] if chance.random() < .4 else []
    lines += [f"source {name} {place} 2000 00" for place in (1, 2) if chance.random() < .6]
    return lines + [f"sink {name} {place} {node} 2000 00" for place in (1, 2) for node in nodes if chance.random() < .4]


def random_events(chance, nodes):
    lines = []
    for key in sorted(chance.sample(range(1, 9), chance.randint(0, 4))):
        kinds = [f"nmt {chance.choice([1, 129])} {chance.choice([0, *nodes])}"]
        kinds += [f"power {chance.choice(nodes)} off", f"set {chance.choice(nodes)} 2000 00 7"] if nodes else []
        lines.append(f"event {key} {chance.randint(0, 99)} {chance.choice(kinds)}")
    return lines


def lines_of(project):
    return [line.encode() for line in project]


class Model:
    """Takes commands as cobench does: one that is refused fails the test."""

    def __init__(self):
        self.project, self.hints = Project(), Hints()

    def take(self, commands):
        for command in script.commands_of(b"".join(commands)):
            why = self.hints.why(command, self.project)
            assert not why and len(self.project.texts) <= 64, (command.line, why)
            self.project.take(command)
        return self

    def record(self):
        return {name: {key: vars(each) if hasattr(each, "__dict__") else each for key, each in value.items()} if isinstance(value, dict) else value
                for name, value in vars(self.project).items()}


def leads(old, new):
    """The edits between two projects; they are taken one by one, and the model then has the new project."""
    made = edits(items_of(lines_of(old)), items_of(lines_of(new)))
    model, wanted = Model().take(edits(first_project(), items_of(lines_of(old)))), Model().take(edits(first_project(), items_of(lines_of(new))))
    assert model.take(made).record() == wanted.record(), (old, new)
    return [tool.shown(edit.split(b"\n")[0]) for edit in made]


def test_edits_lead_from_any_project_to_any_other():
    chance = random.Random(64)
    for _ in range(400):
        leads(random_project(chance), random_project(chance))


def test_edits_are_those_that_differ():
    old = ["bitrate 1000", "horizon 1000000", "manager 127 0 0 500", "eds d 1", "[2000]", "node 1 a d", "param 1 2000 00 5", "event 1 10 nmt 1 0"]
    assert leads(old, old) == []
    assert leads(old, old[:6] + ["param 1 2000 00 6"] + old[7:]) == ["param 1 2000 00 6"]
    assert leads(old, old[:5] + ["event 1 10 nmt 1 0"]) == ["drop-node 1"]
    assert leads(old, ["bitrate 250"] + old[1:3]) == ["drop-event 1", "drop-node 1", "bitrate 250", "drop-eds d"]


def test_names_that_go_round_are_changed_over_another():
    start = ["bitrate 1000", "horizon 1000000", "manager 127 0 0 500", "eds d 1", "[2000]"]
    old, new = start + ["node 1 a d", "node 2 b d", "node 3 c d"], start + ["node 1 b d", "node 2 c d", "node 3 a d"]
    assert leads(old, new) == ["node 1 node_0 d", "node 3 a d", "node 2 c d", "node 1 b d"]


def test_the_manager_and_a_node_change_places():
    start, sheet = ["bitrate 1000", "horizon 1000000"], ["eds d 1", "[2000]"]
    assert leads(start + ["manager 127 0 0 500"] + sheet + ["node 1 a d"], start + ["manager 1 0 0 500"] + sheet + ["node 127 a d"]) == [
        "drop-node 1", "manager 1 0 0 500", "node 127 a d"]


def test_a_node_becomes_the_controller_and_another_node_again():
    """From version 2 to version 3 the version goes before the manager's number, and back behind it."""
    rest = ["eds d 1", "[2000]", "node 1 a d"]
    old, new = (["bitrate 1000", "horizon 1000000", f"manager {number} 0 0 500"] + rest for number in (127, 1))
    new[:0] = ["version 3"]
    assert leads(old, new) == ["version 3", "manager 1 0 0 500"] and leads(new, old) == ["manager 127 0 0 500", "version 1"]
    assert leads(["version 2"] + old, new) == ["version 3", "manager 1 0 0 500"]
    assert leads(new, ["version 2"] + old) == ["manager 127 0 0 500", "version 2"] and leads(new, ["version 3"] + old) == ["manager 127 0 0 500"]


def test_all_data_sheets_are_exchanged_where_no_more_can_be_there():
    start = ["bitrate 1000", "horizon 1000000", "manager 127 0 0 500"]

    def project(letter):
        sheets = [line for number in range(64) for line in (f"eds {letter}{number:02} 1", "[2000]")]
        return start + sheets + [f"node {number + 1} n{number} {letter}{number:02}" for number in range(64)]

    made = leads(project("a"), project("b"))
    assert len([edit for edit in made if edit.startswith("eds")]) == 64


def test_files_that_edits_cannot_change_are_known():
    for made, nodes in (([], set()), ([b"event 1 5 power 5 on\n", b"drop-event 2\n", b"horizon 9\n"], set()),
                        ([b"param 5 1017 00 7\n", b"unparam 6 1017 00\n", b"event 1 5 power 7 on\n"], {b"5", b"6"}),
                        ([b"param 5 1017 00 7\n", b"message m 5 1 2 0 0 000\n"], None), ([b"bitrate 500\n"], None), ([b"manager 9 0 0 500\n"], None),
                        ([b"eds d 1\n[1000]\n"], None), ([b"node 5 pump drive\n"], None), ([b"need 5 optional\n"], None)):
        assert nodes_of_files(made) == nodes, made
