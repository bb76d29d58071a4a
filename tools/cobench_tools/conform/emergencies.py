"""Emergency messages in words: their codes (CiA 301, table 26) and the bits of the error register."""

CODES = {
    0x8110: "CAN overrun, objects were lost", 0x8120: "CAN is error passive", 0x8130: "life guard error or heartbeat error",
    0x8140: "recovered from bus off", 0x8150: "CAN-ID collision", 0x8210: "a PDO is too short and wasn't processed",
    0x8220: "a PDO is too long", 0x8230: "the destination object of a multiplex PDO isn't there",
    0x8240: "SYNC has an unexpected length", 0x8250: "an RPDO didn't come in time",
}
CLASSES = {
    0x00: "no error any more", 0x10: "generic error", 0x20: "current", 0x21: "current at the input", 0x22: "current inside the device",
    0x23: "current at the output", 0x30: "voltage", 0x31: "mains voltage", 0x32: "voltage inside the device",
    0x33: "output voltage", 0x40: "temperature", 0x41: "ambient temperature", 0x42: "device temperature",
    0x50: "device hardware", 0x60: "device software", 0x61: "internal software", 0x62: "user software", 0x63: "data set",
    0x70: "additional modules", 0x80: "monitoring", 0x81: "communication", 0x82: "protocol error", 0x90: "external error",
    0xF0: "additional functions", 0xFF: "device specific",
}
REGISTER = ("generic", "current", "voltage", "temperature", "communication", "device profile", "reserved", "of the maker")


def name_of(code):
    """What an emergency error code means: its own words, else those of its class, else those of the group of classes."""
    return CODES.get(code) or CLASSES.get(code >> 8) or CLASSES.get(code >> 8 & 0xF0, "error")


def register_text(bits):
    """The bits of the error register in words."""
    names = [name for place, name in enumerate(REGISTER) if bits >> place & 1]
    return f" ({', '.join(names)})" if names else ""


def text_of(data):
    """An emergency message in words."""
    if len(data) != 8:
        return f"its emergency message has {len(data)} bytes, not 8"
    code = int.from_bytes(data[:2], "little")
    more = f", {data[3:].hex(' ').upper()} of the maker" if any(data[3:]) else ""
    return f"emergency {code:04X}h: {name_of(code)}; error register {data[2]:02X}h{register_text(data[2])}{more}"
