"""What a script takes over of the DCFs of an existing machine: their nodes, manager, messages and values."""
from . import lost_pdos, manager_objects, taken_twice, tool
from .joined import Joined, free_name
from .machine_manager import is_controller, number_of, paired, sync_of
from .node_file import NodeFile
from .node_values import NOTE, WARNING, NodeValues
from .pdo_writes import values_of
from .project import Project

MOST_ENTRIES, LAST_NODE = 4096, 127
COUNTERS = range(2, 241)
TIMEOUT = 500           # ms, as no file says it


def read_files(paths, version):
    """The DCFs of a machine, by node, for a script of a version, and those that an export made for its master, by their nodes."""
    files = sorted((NodeFile(path, version) for path in paths), key=lambda file: file.number)
    files, masters = paired(files)
    for one, other in zip(files, files[1:]):
        if one.number == other.number:
            raise tool.Fault(f"{one.path} and {other.path} are both of node {one.number}")
    names = set()
    for file in files:
        file.name = free_name(file.name, names)
        entries = len(file.device.entries)
        if entries > MOST_ENTRIES:
            raise tool.Fault(f"{file.path}: it has {entries:,} entries, and cobench takes {MOST_ENTRIES:,}")
    return files, masters


def settings_of(files, controller):
    """A project with the nodes of these files, their manager, its SYNC counter, and which nodes are mandatory."""
    project = Project()
    project.nodes = {file.number: (file.name, "") for file in files}
    number = controller.number if controller else max(set(range(1, LAST_NODE + 1)) - set(project.nodes))
    periods = map(sync_of, [controller.file, *files] if controller else files)
    project.manager = number, next(filter(None, periods), 0), controller.heartbeat if controller else 0, TIMEOUT
    project.mandatory = controller.mandatory(project.nodes) if controller else set()
    counters = {number_of(file, manager_objects.COUNTER) for file in files} - {0}
    project.sync_counter = min(counters) if len(counters) == 1 and min(counters) in COUNTERS else 0
    return project


class Taken:
    """What a script of a version takes over of the DCFs of a machine.

    files       the DCFs, by node
    controller  the device that the manager runs in, None where it is none of these
    settings    a project with the nodes and all that their manager does
    wanted      the numbers that the objects of the controller have to have by them
    joined      their messages
    values      the values of each node that are none of PDOs
    pdos        what there is to tell of the PDOs of each node
    """

    def __init__(self, files, version, with_defaults, controller=None):
        self.files, self.controller = files, controller
        self.settings = settings_of(files, controller)
        self.joined = Joined(files, version, self.settings.manager)
        self.wanted = manager_objects.wanted(self.settings, self.nodes()) if controller else {}
        self.values = {file.number: NodeValues(file, with_defaults, self._made_of(file)) for file in files}
        self.pdos = told_of_pdos(self.joined)

    def nodes(self):
        """The nodes with the values of their files, by number."""
        return {file.number: file.node for file in self.files}

    def _made_of(self, file):
        """The numbers of a file that an export makes again of the network; of a file as cobench prints it each was set by somebody."""
        if not is_controller(self.controller, file) or file.is_export and not file.is_manager:
            return {}
        return {key: number for key, number in self.wanted.items() if key[0] in manager_objects.OF_MANAGERS}

    def tells_all(self):
        """Whether nothing is to be told of its PDOs, and none of its values is lost."""
        return not any(self.pdos.values()) and not any(each.lost for each in self.values.values())

    def loss(self):
        """How many values are lost, and how much else there is to warn of."""
        warned = sum(severity == WARNING for several in self.pdos.values() for _, severity, _ in several)
        return warned + sum(each.lost for each in self.values.values())


def taken_best(files, controller, paths, with_defaults):
    """What a script takes over of these files: one of version 3 where a node is the controller, or less is lost so, else one of
    version 1, of which the files are read anew."""
    if controller:
        return Taken(files, 3, with_defaults, controller)
    old = Taken(read_files(paths, 1)[0], 1, with_defaults)
    if old.tells_all():
        return old
    new = Taken(files, 3, with_defaults)
    return new if new.loss() < old.loss() else old


def told_of_pdos(joined):
    """What there is to tell of the PDOs of each node: a line, `warning` or `note`, and words each, by the nodes."""
    plan, found = joined.plan(), {}
    for number, file in joined.files.items():
        causes = {(direction, at): why for (node, direction, at), why in joined.causes.items() if node == number}
        made = values_of(plan, number)
        keys = lost_pdos.all_keys(file, made) if joined.version >= 3 else None
        lost = lost_pdos.warnings(file.node, made, causes, keys) + taken_twice.warnings(file, made)
        lost += lost_pdos.silenced(file, made, causes)
        found[number] = [(line, WARNING, words) for line, words in lost]
        found[number] += [(line, NOTE, words) for line, words in lost_pdos.turned_off(file, made)]
    return found
