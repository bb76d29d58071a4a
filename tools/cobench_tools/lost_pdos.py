"""What becomes of a node's PDOs that messages can't make as its file has them: a warning for each that is another."""
from . import values
from .device import object_name
from .pdo_values import is_of_pdos
from .wiring import COMMUNICATION, OFF, RPDO, TPDO, pdo_of

NO_RTR = 1 << 30

# What messages never say of a PDO, and what it comes to, for all PDOs of a node together.
REMOTE_FRAMES = "its COB-ID allows remote frames, and by the script it doesn't"
RPDO_TYPE = "its transmission type is another, and by the script 255"


class Lost:
    """A value of a PDO object that the script makes another: its line, entry, number in the file, and by the script."""

    def __init__(self, line, key, wanted, made):
        self.line, self.key, self.wanted, self.made = line, key, wanted, made

    def small(self):
        """What this comes to where messages never say it, else None."""
        direction, _ = pdo_of(self.key[0])
        if self.key[0] >= COMMUNICATION[direction] + 0x201:
            return None
        if direction == TPDO and self.key[1] == 1 and self.wanted ^ self.made == NO_RTR:
            return REMOTE_FRAMES
        return RPDO_TYPE if direction == RPDO and self.key[1] == 2 and min(self.wanted, self.made) > 240 else None


def lost_values(node, made, keys):
    """Those of these values of PDO objects that the script makes others, by PDO."""
    found = {}
    for key in sorted(keys):
        entry = node.device.entries[key]
        if is_of_pdos(key[0]) and matters(node, made, key):
            number = made_number(node, made, key)
            wanted = int.from_bytes(node.written[key], "little") if key in node.written else made_number(node, {}, key)
            lost = Lost(entry.line, key, wanted, number)
            is_by_chance = key not in node.written and lost.small() == REMOTE_FRAMES       # nobody has chosen that
            if number != wanted and not means_the_same(key, wanted, number) and not is_by_chance:
                found.setdefault(pdo_of(key[0]), []).append(lost)
    return found


def means_the_same(key, one, other):
    """Whether two numbers of an entry come to the same by CiA 301: the transmission types 0 to 240 of an RPDO."""
    direction, number = pdo_of(key[0])
    return direction == RPDO and key == (COMMUNICATION[RPDO] + number, 2) and max(one, other) <= 240


def made_number(node, made, key):
    """The number that an entry has by the script: what messages write, else its default."""
    if key in made or key not in node.device.entries:
        return made.get(key, OFF)
    return int.from_bytes(values.default_of(node.device.entries[key], node.number), "little")


def matters(node, made, key):
    """Whether an entry says anything: its PDO is on, here or by the script, and a mapping entry counts."""
    direction, number = pdo_of(key[0])
    communication = COMMUNICATION[direction] + number
    cob = node.number_at(communication, 1, 0x07)
    if (cob is None or cob & OFF) and made_number(node, made, (communication, 1)) & OFF:
        return False
    count = node.number_at(communication + 0x200, 0, 0x05) or 0
    return key[0] == communication or key[1] <= count


def warnings(node, made, causes, keys=None):
    """The warnings, each a line and words.

    made    the number of each entry of PDO objects that the messages write
    causes  why a PDO is in no message, by direction and number
    keys    the entries that are asked for, without them those of which the file gives values
    """
    found, together = [], {}
    for pdo, several in lost_values(node, made, node.written if keys is None else keys).items():
        small = {lost.small() for lost in several}
        if None in small:
            found.append(warning(pdo, several, causes.get(pdo)))
        else:
            for what in small:
                together.setdefault(what, []).append((min(lost.line for lost in several), pdo))
    return found + [together_warning(what, several) for what, several in together.items()]


def is_on(made, pdo):
    """Whether a PDO that is on in a file is on by the script too."""
    return not made.get((COMMUNICATION[pdo.direction] + pdo.number, 1), 0) & OFF


def unset_and_off(file, made):
    """The PDOs that are on by the data sheet, of which the file sets nothing, and that the script turns off."""
    set_ones = {(pdo.direction, pdo.number) for direction in (TPDO, RPDO) for pdo in file.set_pdos(direction)}
    return [pdo for direction in (TPDO, RPDO) for pdo in file.on_pdos(direction)
            if (direction, pdo.number) not in set_ones and not is_on(made, pdo)]


def all_keys(file, made):
    """The entries of PDOs that the file gives or the messages write, but for PDOs that these turn off as nothing uses them."""
    silent = {(pdo.direction, pdo.number) for pdo in unset_and_off(file, made)}
    return set(file.node.written) | {key for key in made if pdo_of(key[0]) not in silent}


def line_of(file, pdo):
    """The line that has a PDO on by the data sheet."""
    return file.device.entries[COMMUNICATION[pdo.direction] + pdo.number, 1].line_of("defaultvalue")


def silenced(file, made, causes):
    """A warning for each TPDO that is sent by the data sheet, and off by the script."""
    return [(line_of(file, pdo), f"TPDO {pdo.number} is on here by the data sheet, and off by the script (COB-ID "
             f"{pdo.identifier:03X}h){because(causes.get((TPDO, pdo.number)))}")
            for pdo in unset_and_off(file, made) if pdo.direction == TPDO and pdo.works()]


def turned_off(file, made):
    """What there is to note of the others: nothing is sent or taken by them."""
    found = [pdo for pdo in unset_and_off(file, made) if pdo.direction == RPDO or not pdo.works()]
    names = ", ".join(f"{pdo.direction} {pdo.number}" for pdo in found)
    return [(min(line_of(file, pdo) for pdo in found), f"on by the data sheet, and off by the script, as no message uses "
             f"{'it' if len(found) == 1 else 'them'}: {names}")] if found else []


def warning(pdo, several, why):
    """The warning of a PDO: whether it is on, or its first value that is another; and why, where that is known."""
    first = min(several, key=lambda lost: lost.line)
    cob = next((lost for lost in several if lost.key == (COMMUNICATION[pdo[0]] + pdo[1], 1)), None)
    if cob and (cob.wanted ^ cob.made) & OFF:
        is_on = "is on here, and off by the script" if cob.made & OFF else (
            "is off here, and on by the script, as in the data sheet")
        identifier = (cob.wanted if cob.made & OFF else cob.made) & 0x7FF
        return cob.line, f"{pdo[0]} {pdo[1]} {is_on} (COB-ID {identifier:03X}h){because(why)}"
    rest = f", and {len(several) - 1} more of its values" if len(several) > 1 else ""
    return first.line, (f"{pdo[0]} {pdo[1]}: {object_name(first.key)} is {first.wanted:X}h here, and {first.made:X}h "
                        f"by the script{rest}{because(why)}")


def because(why):
    return f": {why}" if why else ""


def together_warning(what, several):
    """The warning of what messages never say, for all PDOs of the node."""
    names = ", ".join(f"{direction} {number}" for _, (direction, number) in sorted(several, key=lambda each: each[1]))
    return min(line for line, _ in several), f"{names}: {what}"
