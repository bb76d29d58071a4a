"""What the commands of a script do, in a line each (docs/rules/commands.md)."""

MEANINGS = {
    "version": (
        "1, 2 or 3: the version of the script. In version 1 no node is mandatory, and the manager starts each node by "
        "itself; from version 2 on it starts the network as a whole, in version 3 node by node. In version 3 frames have "
        "their stuff bits, PDOs are taken as vendors make them, and a node may have the manager's number"),
    "bitrate": (
        "10, 20, 50, 125, 250, 500 or 1000 kbit/s"),
    "horizon": (
        "0 to 10,000,000 microseconds: where the simulation ends"),
    "manager": (
        "the manager's number 1 to 127, in version 3 also that of a node: the manager runs in that node, the controller; "
        "the time between two SYNC messages, 0 for none or 1,000 to 10,000,000 microseconds; its heartbeat's producer time, "
        "0 for none, to 65,535 ms; the longest wait for an SDO answer, 1 to 65,535 ms"),
    "time-period": (
        "in version 3: the manager sends TIME (CiA 301, the time stamp) each US microseconds, 1,000 to 10,000,000; the run "
        "begins at midnight of the day DAYS, 0 to 65,535. US 0 is none, and DAYS isn't kept then"),
    "sync-counter": (
        "the SYNC messages are counted 1 to N (CiA 301, synchronous counter overflow value): 2 to 240; 0 for SYNC "
        "messages without a counter"),
    "eds": (
        "the next LINES lines are the text of the EDS of that name; a known name gets the new text"),
    "drop-eds": (
        "takes the text of an EDS away"),
    "node": (
        "ID 1 to 127, the manager's in version 3 alone; a known ID gets the new name and EDS, and keeps its need and its "
        "parameters; a new one is optional. Names of nodes differ"),
    "need": (
        "from version 2 on: the manager starts the network once each mandatory node is configured (CiA 302); of the "
        "controller it asks for nothing"),
    "drop-node": (
        "takes a node away, with its need and its parameters"),
    "param": (
        "sets the parameter; a known one is replaced. INDEX isn't in 1400h to 1BFFh, the PDO objects"),
    "unparam": (
        "takes a parameter away"),
    "message": (
        "node ID sends a message of that name: its TPDO 1 to 512, transmission type TYPE 0 to 255, inhibit time "
        "INHIBIT 0 to 65,535 in multiples of 100 microseconds, event timer EVENT 0 to 65,535 ms, identifier COB 1h to "
        "7FFh, or 0 for one that the plan gives. A known name gets the new numbers, and keeps its SYNC start value, "
        "its sources, its sinks and its receives"),
    "start": (
        "the SYNC start value (CiA 301): the counter of the SYNC from which on the sender counts SYNC messages, 1 to "
        "240; 0 for any"),
    "drop-message": (
        "takes a message away, with its start value, its sources, its sinks and its receives"),
    "source": (
        "at position POS, 1 to 64, the message carries that entry of its sender; the source that stands there is "
        "replaced"),
    "unsource": (
        "takes the source at a position away"),
    "sink": (
        "the entry of node ID takes what stands at POS, 1 to 64, of the message; the one that this node has there is "
        "replaced. Other nodes may have sinks at the same POS"),
    "unsink": (
        "takes the sink of a node at a position away"),
    "receive": (
        "in version 3: node ID takes the message by its RPDO 1 to 512, or, with 0, by one that the plan gives; MS is the "
        "event time of that RPDO, 0 to 65,535 ms, within which a frame is expected, and 0 leaves it as it is. A known pair "
        "of message and node gets the new numbers"),
    "unreceive": (
        "in version 3: takes the receive of a node away"),
    "event": (
        "at TIME, 0 to 10,000,000 microseconds, the node's application sets an entry. K is 1 to 10,000; a known K is "
        "replaced. INDEX as in param; the node's power is switched; that of the controller isn't; the manager sends an NMT "
        "command: 1 start, 2 stop, 128 enter pre-operational, 129 reset node, 130 reset communication; ID 0 means all "
        "nodes"),
    "drop-event": (
        "takes an event away"),
    "dcf": (
        "prints the node's DCF"),
    "cdcf": (
        "prints the node's concise DCF, 16 bytes a line"),
    "diag": (
        "prints all that is wrong with the project: its diagnostics, one a line"),
    "trace": (
        "prints the frames of the simulated network up to the horizon, and the manager's notes"),
    "project": (
        "prints the project as commands"),
}
