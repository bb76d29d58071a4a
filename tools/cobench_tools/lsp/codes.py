"""What the codes of diagnostics mean on a machine, and what its builder does about them (docs/rules/diagnostics.md)."""

# By code: what it means, and what to do. E02 has two, of a value and of a default.
MEANINGS = {
    "E01": (
        "The device has no such entry, and would abort the write with 06020000h or 06090011h. Either the index is "
        "wrong, or the EDS is of another device or firmware.",
        "Look the index and sub-index up in the manual of the device; take in the EDS of the firmware that it has."),
    "E16": (
        "cobench doesn't model the entry's type, so the value isn't written: TIME_OF_DAY and others in every version, "
        "REAL32, REAL64 and integers of 24 to 56 bits in versions 1 and 2. Where the EDS itself gives it, its line "
        "stays in the DCF, but the concise DCF hasn't got it.",
        "Begin the script with version 3 where its types are meant; else take the parameter away, and set it with the "
        "vendor's tool or from the control program."),
    "E04": (
        "The device lets nobody write the entry: it would abort with 06010002h. Often a value that it measures or "
        "counts was taken for one that it is set to.",
        "Take the parameter away, or name the entry that is meant. Where the EDS itself gives the value, the EDS is "
        "wrong: the diagnostic goes when that line does."),
    "E02": (
        "The text is no value of the entry's type: too large a number, a letter too many, a formula that fits at "
        "another node only; of an integer a number with a point; of a REAL a hexadecimal number, a comma, a formula, "
        "inf or nan, or a number beyond its largest. The device keeps what it has.",
        "Write the value as the type has it; the EDS says which type, and mostly in which unit. A REAL is a decimal "
        "number, as 0.5 or -1.25e-3."),
    "E02 default": (
        "The EDS says nothing usable of the value with which the device starts, as the default 0x3F800000 of a "
        "REAL32. It is taken as 0 or as empty text here, and the device may start with another.",
        "Ask the vendor for a corrected EDS, or mend the line; set the entry by a parameter where its value matters."),
    "E03": (
        "The value is beyond what the vendor allows: the device would abort with 06090031h or 06090032h, and a "
        "setting as a speed or a current isn't the one that was meant. The limits of a REAL aren't asked.",
        "Choose a value within the limits; if it is right, the EDS is of a smaller device."),
    "E05": (
        "The sender can't send this message: it has no such TPDO, its mapping can't be written or has too few places, "
        "or it has no inhibit time, event timer or SYNC start value to set. In version 3 a mapping or a value that "
        "can't be written serves where the data sheet has just that.",
        "Use another TPDO of the node, fewer sources, or 0 for INHIBIT, EVENT or the SYNC start value; of a TPDO with "
        "a fixed mapping, in version 3, the sources that it maps, in their order, and the values that the data sheet "
        "gives it."),
    "E06": (
        "Two messages would be sent by the same TPDO; only the first of them by name that is clean is.",
        "Give the other one another TPDO, or make one message of both."),
    "E07": (
        "The values don't fit into the 8 bytes of one frame.",
        "Make two messages of it."),
    "E08": (
        "The device can't put this value into a PDO, or take it from one: it would abort the mapping with 06040041h. "
        "Or a node is to take a value from itself; or the heartbeat time of the controller, which is the manager's, is to "
        "be in a PDO.",
        "Look up in the manual which entries can be mapped; read and write others by SDO. Set the heartbeat time of the "
        "controller by manager."),
    "E09": (
        "The receiver would read its value from bits that hold another, or none; or, in version 3, the bits of a REAL "
        "for a whole number, or those of a whole number for a REAL: 12.75 as 1,095,499,776.",
        "Let the sink name an entry as wide as its source, at the source's position; of a REAL one of the same type. "
        "Many devices have a value as REAL32 and as INTEGER32 too."),
    "E10": (
        "The receiver has no RPDO left for this message, or none with as many places, or its mapping is read only (a "
        "device with a fixed mapping): what it should act on would never arrive. In version 3 an RPDO with a fixed "
        "mapping or a fixed COB-ID takes a message that has just these; and one that a receive names has to fit.",
        "Send it several values in one message, or let another node take some of them; in version 3 let the sources, "
        "their order and the COB be those that the data sheet of the receiver fixes."),
    "E11": (
        "The receiver has to skip bits that are for others, and can't: its EDS allows no dummy of that width.",
        "Give it a sink for these bits too, or send the values for each receiver in a message of their own."),
    "E12": (
        "Another message or another service has this identifier: two senders of one identifier disturb each other, "
        "and a PDO on one of NMT, SDO or heartbeat is taken for a command or for a sign of life. In version 3 also: "
        "the data sheet fixes another identifier for this TPDO.",
        "Set COB to 0, so that the plan finds one or takes the fixed one, or choose one from 181h on that is free."),
    "E13": (
        "No identifier is left to give to this message; or, in version 3, the one that its data sheet fixes is had by "
        "another message, or restricted.",
        "Join messages, or give some an explicit identifier that no other has; let the message with the fixed one be "
        "the first by name, or give the other one another identifier."),
    "E14": (
        "CiA 301 reserves transmission types 241 to 251: what a device does with one is its own affair.",
        "Use 0 to 240 for messages at SYNC, 254 or 255 for those at events."),
    "E15": (
        "Two TPDOs send frames of one identifier. Receivers can't tell them apart, and where both start at once with "
        "other bytes, the bus has errors that can switch nodes off. Mostly two devices come with the same fixed "
        "identifier in their defaults.",
        "Send a message by one of these TPDOs, so that the plan writes its identifier; where one of them sends a "
        "message with an explicit one, give it another."),
    "W17": (
        "The TPDO is sent where somebody asks for it by a remote frame. Nothing in this project does, and CiA advises "
        "against remote frames.",
        "Use 254 or 255, or a type at SYNC."),
    "W18": (
        "The message waits for a SYNC, and the manager sends none, so that it is never sent.",
        "Give manager a SYNC_US, or the message the type 254 or 255. Where another device of the machine sends SYNC, "
        "all is well."),
    "W19": (
        "Watching that node is of no use: a node that is never heard isn't missed, and one that sends too seldom is "
        "reported as lost while it works, and the machine may stop. No device hears a heartbeat of its own, also not the "
        "controller that of the manager in it.",
        "Give the watched node a producer time (1017h) well below the consumer's time, the controller by HB_MS of "
        "manager; or set the consumer to 0 where the node is gone, or is the controller itself."),
    "W20": (
        "A line of the EDS isn't used: it is misspelled, gives a key for the second time (the first one counts), or "
        "is a CompactPDO that isn't modelled. What it should say is lost.",
        "Look at the line; correct it, or ask the vendor."),
    "W21": (
        "The node's SYNC counter doesn't match the network's: it ends at another number, or only one of the two has a "
        "counter. A device that checks the length of SYNC says so in an emergency object, and its TPDOs with a SYNC "
        "start value may start at another SYNC than was meant.",
        "Set 1019h:00 of the node by a parameter to the N of sync-counter, or choose that N for the network."),
    "W22": (
        "The TPDO waits for a SYNC with a number that none has, and so is never sent by a device that goes by the "
        "counter.",
        "Give start a number of at most the N of sync-counter, or that N a higher one."),
    "W23": (
        "The device sends this TPDO whatever the plan says: its data sheet has it on, and nothing may switch it off. "
        "It takes time on the bus, and whoever listens to its identifier gets it.",
        "Use it in a message, if anybody can use what it sends; else leave it, and see that no other message has its "
        "identifier (E15) and that the load allows for it."),
    "W24": (
        "The device takes frames by this RPDO that are meant for others, and writes what they bring into the entries "
        "that its data sheet maps: an output or a setpoint moves by another node's value.",
        "Give the message another identifier, or let it be one for this node too."),
    "W25": (
        "The event does nothing: the manager runs in the controller, so that its power isn't switched, and its heartbeat "
        "is the manager's.",
        "Reset its device by an event nmt 129 or nmt 130; set the time of its heartbeat by HB_MS of manager. To see what "
        "comes of a controller that loses power, give the manager a number of its own."),
    "E26": (
        "The device refuses the write with 06090031h or 06090032h; where a manager boots it with these files, its "
        "boot fails there and it isn't started. Mostly an inhibit time, an event time or a transmission type is "
        "beyond what the vendor allows.",
        "Choose a value within the limits that cobtool check names. Where it is the write that configures the PDO "
        "itself, use another PDO of the node."),
    "W27": (
        "The files of the controller give its heartbeat one time (1017h), and the plan of the network has another: on "
        "the machine it comes as its files say, and those who watch it may miss it.",
        "Set 1017h:00 of the controller by a parameter to HB_MS of manager, or that to its value."),
    "W28": (
        "The time within which the node expects frames of this message isn't set: the node doesn't take the message, "
        "or the RPDO by which it does has no event time that can be written. Where the sender falls silent, the node "
        "doesn't notice by that.",
        "Give the node a sink of the message, or name another RPDO in receive; else let the node watch the sender's "
        "heartbeat (1016h), and set the time to 0."),
}


def meaning_of(code, is_default=False):
    """What a code means and what to do, None where it is none of these."""
    return MEANINGS.get(f"{code} default" if is_default else code)
