"""Who a device is: its five numbers (1000h, 1018h), and which data sheets say the same."""
from typing import Dict, List, Optional

from .. import values
from ..device import Device
from .sdo_client import SdoClient
from .transfer import Aborted, Key

# What a device gave for each number, None where it refused it.
Numbers = Dict[Key, Optional[int]]

DEVICE_TYPE, VENDOR, PRODUCT, REVISION, SERIAL = (0x1000, 0), (0x1018, 1), (0x1018, 2), (0x1018, 3), (0x1018, 4)
NUMBERS = {DEVICE_TYPE: "device type", VENDOR: "vendor", PRODUCT: "product", REVISION: "revision",
           SERIAL: "serial number"}
OF_A_KIND = DEVICE_TYPE, VENDOR, PRODUCT


def expected(device: Device, node: int) -> Dict[Key, int]:
    """The numbers that a data sheet gives, 0 where it gives none: these are not compared."""
    found = {}
    for key in NUMBERS:
        entry = device.entries.get(key)
        data = values.default_of(entry, node) if entry and entry.is_of_identity() else b""
        found[key] = int.from_bytes(data, "little")
    return found


def read(client: SdoClient) -> Numbers:
    """The numbers that a device gives, None where it refuses one."""
    found: Numbers = {}
    for key in NUMBERS:
        try:
            found[key] = int.from_bytes(client.read(key), "little")
        except Aborted as why:
            if why.is_own:
                raise
            found[key] = None
    return found


def differences(wanted: Dict[Key, int], found: Numbers) -> List[str]:
    """In words, each number that is other than the data sheet has it."""
    return [f"{name} {text_of(found[key])}, and the data sheet has {wanted[key]:08X}h"
            for key, name in NUMBERS.items() if wanted[key] and wanted[key] != found[key]]


def is_of_kind(wanted: Dict[Key, int], found: Numbers) -> bool:
    """Whether a device is of the kind of a data sheet: it says which kind it is of, and the device says the same."""
    return any(wanted[key] for key in OF_A_KIND) and all(wanted[key] in (0, found.get(key)) for key in OF_A_KIND)


def text_of(number: Optional[int]) -> str:
    return "refused" if number is None else f"{number:08X}h"
