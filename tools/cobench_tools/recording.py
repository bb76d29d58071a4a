"""A recording as a trace: its frames with times from the first one on, and the network in whose words they are said."""
import heapq

from . import meaning, tool
from .conform import choice
from .conform.load import shape_of
from .conform.tolerance import Tolerance
from .logs import part, source
from .logs.rows import OTHER
from .trace import Foreign, Frame
from .wiring import COMMUNICATION, TPDO, pdo_numbers


def opened(options):
    """The recording that `--log` names; one that is cut is shown up to there."""
    return source.Log(options.log, channel=options.channel, slack=Tolerance().jitter, part=part.Part(options.first, options.last),
                      may_be_cut=True)


def plan_of(options, log):
    """What a script plans for a recording."""
    return choice.plan_of(options, log, Tolerance())


def network_of(plan, with_names):
    """The network of a plan, with its PDOs as they are planned: a recording may begin behind the boots."""
    network = meaning.Network(plan.project, with_names)
    network.is_recorded = True
    for number, node in plan.wiring.nodes.items():
        for tpdo in pdo_numbers(node.device, TPDO):
            for index in (COMMUNICATION[TPDO] + tpdo, COMMUNICATION[TPDO] + 0x200 + tpdo):
                for sub in sorted(sub for at, sub in node.device.entries if at == index):
                    value = node.number_at(index, sub, node.device.entries[index, sub].kind)
                    if value is not None:
                        network.write(number, (index, sub), value)
    return network


def lines_of_block(rows, aside, start):
    """The frames of a block, and what there is besides, by time."""
    frames = (Frame(time - start, int(key[:3], 16), bytes.fromhex(data)) for time, key, data in rows)
    others = (Foreign(each.time - start, each.kind, each.identifier, bytes.fromhex(each.data), bits_of(each))
              for each in aside if each.kind != OTHER)
    return heapq.merge(frames, others, key=lambda line: line.time)


def bits_of(aside):
    """For how many bits it has the bus, without stuff bits."""
    bits, each = shape_of(aside)[0]
    return bits + each * aside.size


def lines_of(log):
    """All frames of a recording; what is odd about it is said on the standard error."""
    found = []
    for block in log.blocks():
        if block.set_back:
            tool.say(f"{log.where}:{block.set_back.line}: the recorder's clock is set back; times go on from the frame before")
        found += lines_of_block(block.rows, block.aside, log.start)
    if log.cut:
        tool.say(f"{log.where}:{log.cut}: the recording is cut here")
    if not log.has_times:
        tool.say(f"{log.where}: it has no times; its frames are shown a millisecond apart")
    return found
