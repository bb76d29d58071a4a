"""What a session shows of its network: what the causes of findings are told from."""
import functools

from . import concise, pdo_values, tool
from .device import Device
from .origins import Origins
from .plan import Plan
from .wiring import Node


class Evidence:
    """The network at the end of a session that was asked these queries.

    project      what the script makes
    origins      which command made each part of it
    diagnostics  the lines of `diag`

    `sheets` are data sheets that were read before, by name.
    """

    QUERIES = ("diag", "trace", "cdcf")

    def __init__(self, answered, sheets=None):
        self.answered, self.project = answered, answered.project
        self.diagnostics = [tool.shown(line) for line in answered.lines("diag")]
        self._devices, self._nodes = dict(sheets or {}), {}

    @functools.cached_property
    def origins(self):
        return Origins(self.answered.pairs)

    @functools.cached_property
    def plan(self):
        """What the messages get, or why they don't."""
        return Plan(self.project, {node: self.device(node) for node in self.project.nodes})

    def device(self, node):
        """The data sheet of a node."""
        return self.sheet(self.project.nodes[node][1])

    def sheet(self, eds):
        """The data sheet of a name; one without entries where none has it, as in replies of another session."""
        if eds not in self._devices:
            self._devices[eds] = Device(self.project.texts.get(eds, []), self.project.version)
        return self._devices[eds]

    def value_lines(self, eds):
        """The lines of a data sheet that give values to entries of PDO objects."""
        if eds in self._devices:
            return pdo_values.lines_of(self._devices[eds])
        return pdo_values.lines_with_values(self.project.texts[eds])

    def know(self, nodes):
        """Takes nodes that are known already, by their numbers, so that none is made again."""
        self._nodes.update(nodes)

    def node(self, node):
        """A node with the values that its entries have once it is configured."""
        if node not in self._nodes:
            written = concise.values_of(self.answered.lines("cdcf", node))
            self._nodes[node] = Node(node, self.device(node), written)
        return self._nodes[node]

    # Names.

    def node_name(self, node):
        """A node in words: `node 2 y_axis`."""
        return f"node {node} {self.project.nodes[node][0]}"

    def entry_name(self, node, key):
        """An entry in words: `6080h:00 Max motor speed`."""
        entry = self.device(node).entries.get(key)
        name = f" {entry.name}" if entry and entry.name else ""
        return f"{key[0]:04X}h:{key[1]:02X}{name}"

    # Places.

    def sheet_place(self, node, line):
        """FILE:LINE of a line of a node's data sheet."""
        return self.origins.sheet_place(self.project.nodes[node][1], line)

    def value_place(self, node, key):
        """FILE:LINE of what gives an entry its value: a parameter, or a line of the data sheet."""
        entry = self.device(node).entries.get(key)
        if (node, *key) in self.project.params:
            return self.origins.place("param", node, *key)
        if entry is None:
            return self.origins.place("node", node)
        return self.sheet_place(node, entry.line if entry.value else entry.line_of("defaultvalue"))
