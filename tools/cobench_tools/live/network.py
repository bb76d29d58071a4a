"""The tables of the network that the page shows: each is made anew only where what it is made of is other."""
from typing import Dict, List

from .. import matrix
from .changed_rows import changed_rows
from ..wiring import RPDO, TPDO, Node, Wiring

TABLES = {"messages": matrix.messages_table, "signals": matrix.signals_table, "heartbeats": matrix.heartbeats_table,
          "left-out": matrix.left_out_table}


NO_ROWS: Dict[str, List[List[str]]] = {"rows": []}


def table_item(table, before):
    """A table of the network; the rows that the last save has changed are marked, and those that have gone stay by.
    None of messages that are left out, where there are and were none."""
    marks, was, gone = changed_rows(table.rows, before["rows"]) if before else ([], {}, [])
    if table.key == "left-out" and not table.rows and not gone:
        return None
    return {"key": table.key, "title": table.title, "columns": table.columns, "rows": table.rows, "below": table.below, "marks": marks,
            "was": was, "gone": gone, "numbers": [table.is_number(place) for place in range(len(table.columns))]}


class Tables:
    """The tables, and the nodes that they are made of, by their numbers, each with its file and what its tables show."""

    def __init__(self):
        self._tables, self._made_of, self._nodes = {}, None, {}

    def take(self, answered, sheets, files):
        """The tables as items, None for one that isn't there; where all that one is made of is as before, no row is marked."""
        self._nodes = {node: self._node(node, sheets[eds], files[node]) for node, (_, eds) in answered.project.nodes.items()}
        wiring = Wiring(answered, self.nodes())
        shown, made_of, self._made_of = self._tables, self._made_of, self._parts(wiring)
        self._tables = {key: without_marks(shown[key]) if made_of and self._made_of[key] == made_of[key]
                        else table_item(make(wiring), None if made_of is None else shown[key] or NO_ROWS)
                        for key, make in TABLES.items()}
        return {f"table/{key}": table for key, table in self._tables.items()}

    def nodes(self):
        """The nodes by their numbers, with the values that their entries have once they are configured."""
        return {number: known.node for number, known in self._nodes.items()}

    def _node(self, number, sheet, file):
        """What is known of a node."""
        known = self._nodes.get(number)
        return known if known and known.sheet is sheet and known.file is file else Known(number, sheet, file)

    def _parts(self, wiring):
        """What each table is made of."""
        project, known = wiring.project, self._nodes.values()
        names = project.manager[0], project.nodes, {name: (each.node, each.tpdo) for name, each in project.messages.items()}, wiring.faults
        pdos = names, [(each.sheet, each.pdos) for each in known]
        beats = project.manager, project.nodes, [each.beats for each in known]
        return {"messages": pdos, "signals": pdos, "heartbeats": beats, "left-out": names}


class Known:
    """A node of the tables.

    pdos   all that the tables show of its PDOs
    beats  what its heartbeats go by
    """

    def __init__(self, number, sheet, file):
        self.sheet, self.file, self.node = sheet, file, Node(number, sheet, file.values)
        self.pdos = [each.shown() for direction in (TPDO, RPDO) for each in self.node.pdos(direction)]
        self.beats = self.node.heartbeat, self.node.watched


def without_marks(item):
    """The item of a table that stays, with no row marked."""
    if not item or not item["marks"] and not item["gone"]:
        return item
    return None if item["key"] == "left-out" and not item["rows"] else {**item, "marks": [], "was": {}, "gone": []}
