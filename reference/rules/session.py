"""A session: the commands of an input and the replies to them: docs/rules/commands.md."""
from itertools import islice
from . import concise_dcf
from .bus import trace_of
from .commands import QUERIES, block_lines, command_of, eds_command
from .dcf_text import dcf_text
from .diagnostics import diagnostics_of
from .faults import UNKNOWN, Refused, refuse_unless
from .ini_text import LONGEST_LINE, lines_of
from .messages import plan_of
from .project import Project
from .writes import node_writes

LONGEST_INPUT = 67_108_864
WHOLE = {b"project": Project.script, b"diag": diagnostics_of, b"trace": trace_of}      # queries of no node

def replies_to(data, work=None):
    """The reply to each command; of an input over 64 MiB one byte more is enough. work counts what was made anew."""
    project, is_too_long = Project(), len(data) > LONGEST_INPUT
    lines = iter(lines_of(data[:LONGEST_INPUT], is_too_long))
    for line in lines:
        size = block_lines(line)
        block = None if size is None else list(islice(lines, size))
        is_cut = block is not None and len(block) < size
        if is_cut and is_too_long:
            return
        if line.strip(b" \t") or len(line) > LONGEST_LINE:
            yield reply(project, work, line, block, is_cut)

def reply(project, work, line, block, is_cut):
    """block: the lines that an `eds` line takes, else None; is_cut: the input ended inside them."""
    try:
        command = command_of(line) if block is None else eds_command(line, block, is_cut)
        if command.word not in QUERIES:
            project.accept(command.word, command.arguments)
            return b"ok\n"
        lines = answer(project, command)
    except Refused as refused:
        return b"refused %s\n" % refused.args
    if work is not None:
        work.reach(project, command, lines)
    return b"lines %d\n" % len(lines) + b"".join(each + b"\n" for each in lines)

def answer(project, query):
    if query.word in WHOLE:
        return WHOLE[query.word](project)
    node, = query.arguments
    refuse_unless(node in project.nodes, UNKNOWN)
    writes = node_writes(project, plan_of(project), node)
    if query.word == b"cdcf":
        data = concise_dcf.text_of(writes)
        return [data[k:k + 16].hex(" ").upper().encode() for k in range(0, len(data), 16)]
    return dcf_text(project.sheet(node), node, project.nodes[node].name, project.bit_rate, writes).split(b"\n")[:-1]
