"""The keys of what CANopen lays down (CiA 301): of commands, of SYNC, of TIME, and of what each node sends and takes."""
from ..logs.rows import key_of

COMMAND, SYNC, TIME = "000#", "080#", "100#"
HEARTBEATS, EMERGENCIES, ANSWERS, REQUESTS = 0x700, 0x080, 0x580, 0x600

# The digits of a boot-up message.
BOOT_UP = "00"


def heartbeat(node):
    """That of the heartbeats and the boot-up message of a node."""
    return key_of(HEARTBEATS + node)


def emergency(node):
    """That of the emergency messages of a node."""
    return key_of(EMERGENCIES + node)


def answer(node):
    """That of what a node says by SDO."""
    return key_of(ANSWERS + node)


def request(node):
    """That of what the manager says to a node by SDO."""
    return key_of(REQUESTS + node)
