"""DCFs as Python's configparser reads them, and the PDOs that they make: written apart from cobench_tools, to judge it."""
import configparser
import re

WIDTHS = {1: 1, 2: 8, 3: 16, 4: 32, 5: 8, 6: 16, 7: 32, 0x15: 64, 0x1B: 64}


class Dcf:
    """A DCF: its node's number and name, and the text that each entry has, by index and sub-index."""

    def __init__(self, text):
        self.ini = configparser.RawConfigParser(strict=False, delimiters="=", comment_prefixes=";", empty_lines_in_values=False)
        self.ini.read_string(text)
        self.sections = {name.lower(): self.ini[name] for name in self.ini.sections()}
        commissioning = self.sections["devicecomissioning"]
        self.node, self.name = int(commissioning["NodeID"]), commissioning["NodeName"]
        self.values = {}
        for name, keys in self.sections.items():
            found = re.fullmatch("([0-9a-f]{4})(?:sub([0-9a-f]+))?", name)
            if found and "compactsubobj" in keys:
                self._take_compact(int(name, 16), name, keys)
            elif found:
                key = int(found.group(1), 16), int(found.group(2) or "0", 16)
                self.values[key] = keys.get("parametervalue") or keys.get("defaultvalue") or "0"

    def _take_compact(self, index, name, keys):
        values = self.sections.get(name + "value", {})
        for sub in range(1, int(keys["compactsubobj"], 0) + 1):
            self.values.setdefault((index, sub), values.get(str(sub)) or keys.get("defaultvalue") or "0")

    def number(self, index, sub):
        """The number of an entry, 0 where it isn't there; $NODEID is the node."""
        parts = self.values.get((index, sub), "0").lower().replace("$nodeid", str(self.node)).split("+")
        return sum(int(part, 0) for part in parts)

    def pdos(self, first):
        """The PDOs that are on, of the communication objects from an index on: number, identifier, and entries with bits."""
        found = []
        for number in range(1, 65):
            index = first + number - 1
            cob = self.number(index, 1)
            items = [self.number(index + 0x200, sub) for sub in range(1, self.number(index + 0x200, 0) + 1)]
            if (index, 1) in self.values and items and not cob >> 31 & 1:
                found.append((number, cob & 0x7FF, [(item >> 16, item >> 8 & 0xFF, item & 0xFF) for item in items]))
        return found


def places(items):
    """The first bit of each mapped entry, the entry, and its bits; dummies are passed over."""
    start, found = 0, []
    for index, sub, bits in items:
        found += [(start, bits, index, sub)] if index > 7 else []
        start += bits
    return found


def links(dcfs):
    """Who sends what to whom: identifier, sender, TPDO, first bit, bits, entry; receiver, RPDO and its entry, or None."""
    found = set()
    for sender in dcfs:
        for tpdo, identifier, items in sender.pdos(0x1800):
            for start, bits, index, sub in places(items):
                taken = [(other.name, rpdo, *entry[2:]) for other in dcfs if other is not sender
                         for rpdo, cob, mapped in other.pdos(0x1400) if cob == identifier
                         for entry in places(mapped) if entry[:2] == (start, bits)]
                sent = identifier, sender.name, tpdo, start, bits, index, sub
                found |= {sent + (receiver,) for receiver in taken or [None]}
    return found
