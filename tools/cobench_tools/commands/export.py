"""Writes the files of a network: what cobench answers for a script, each in a file of its own."""
import os

from .. import acceptance, export_folder, manifest, master_file, network_files, session, tool
from ..origins import Origins
from . import check

SUMMARY = "check a script, and write the files of its network: DCF, concise DCF, trace"

AFTER = f"""Reports what `cobtool check` reports. Without an error it writes into DIR, which is made
where it isn't there, for each node ID_NAME.dcf (its DCF) and ID_NAME.bin (the bytes
of its concise DCF, as object 1F22h takes them), and diagnostics.txt, trace.txt,
trace.log (candump). In version 3, where the manager runs in a node, the controller, it
writes N_NAME_master.dcf too: the DCF of that node with what its manager needs, where
the data sheet has these objects: 1F80h (it is the master, and starts the nodes one by
one), 1F81h (which nodes it boots, and which are mandatory), 1F84h to 1F88h (who they
are), 1F89h (0, no boot time), 1F22h (UploadFile, the .bin of each node), 1016h (the
nodes whose heartbeats it doesn't watch yet, for one and a half of their periods), and by
`manager` 1005h, 1006h, 1012h, 1017h and 1019h. A value of `param` stays. What the data
sheet doesn't take is noted. It was tried with no real master.

With --force it writes in spite of errors what the accepted
commands make. Files that are there are replaced: all of them, or none, also where
it is interrupted. The last file is export.json, with the digest of each one; by it
`cobtool check --files DIR SCRIPT` says later which of them have changed. One export
at a time writes into a folder: the next one waits, at most ten seconds. What a
killed one left half done the next one puts in order.

A file of DIR keeps its mode, and a link there is replaced, not followed. Where DIR
has nothing but the files of an export it changes places as a whole with a new
folder; what stands in it, as a shell, has to enter it anew.

{acceptance.HELP}

{session.PROGRAM} Status: 0, 1 where there are errors, 2 where the script can't be
read, cobench can't be run, or DIR can't be written.

  cobtool export --allow-from accepted.txt files network.txt"""


def write(folder, files, source):
    """Writes all files, and tells of those of nodes that aren't there any more."""
    export_folder.write(folder, files, source)
    for name in sorted(os.listdir(folder)):
        if manifest.NODE_FILE.fullmatch(name) and name not in files:
            tool.say(f"{os.path.join(folder, name)} is none of these nodes: of an earlier export?")


def written_text(folder, report, files, master):
    """What was written, in one line."""
    if not files:
        return "nothing was written\n"
    nodes = len(report.answered.project.nodes)
    of_nodes = f"DCF and concise DCF of {nodes} node{'' if nodes == 1 else 's'}, " if nodes else ""
    of_master = "DCF of the master, " if master and master.name in files else ""
    return f"{len(files)} files in {folder}: {of_nodes}{of_master}diagnostics.txt, trace.txt, trace.log\n"


def tell_of_master(answered, master):
    """Notes what the data sheet of the controller doesn't take of what its manager needs."""
    place = Origins(answered.pairs).place("node", master.node)
    for words in master.notes:
        tool.warn(f"{place}: note: node {master.node} {answered.project.nodes[master.node][0]}: {words}")


def arguments(parser):
    parser.epilog = AFTER
    parser.add_argument("folder", metavar="DIR", help="the folder for the files")
    parser.add_argument("script", metavar="SCRIPT", help="the script, with comments and files; - is the standard input")
    parser.add_argument("--force", action="store_true", help="write in spite of errors")
    check.add_arguments(parser)


def check_order(folder, script):
    """Whether DIR and SCRIPT stand in this order, where the files that are there tell it."""
    if os.path.isfile(folder) and not os.path.exists(script) and script != "-":
        raise tool.Fault(f"{script}: No such file or directory; DIR stands first: cobtool export {script} {folder}")


def run(options):
    check_order(options.folder, options.script)
    report = check.report_of(options, ("dcf",))
    is_written = options.force or report.status == tool.DONE
    master = master_file.of(report.answered) if is_written else None
    files = network_files.files_of(report.answered, master) if is_written else {}
    if files:
        source = network_files.source_of(report.answered, os.path.basename(options.script), options.cobench)
        write(options.folder, files, source)
    if options.json:
        tool.put(report.as_json(folder=options.folder, files=sorted(files)))
    else:
        tool.put(report.as_text() + written_text(options.folder, report, files, master))
    if master:
        tell_of_master(report.answered, master)
    return report.status
