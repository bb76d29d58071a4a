"""Judges a log beside the plan of a script."""
import gc

from ..logs.progress import Progress
from ..logs.intake import Block
from .causes import Causes, Times
from .judge import Judge
from .load import WINDOW
from .plan import milliseconds


def planned_causes(plan, tolerance, window=None):
    """What the planned run itself shows: it isn't told of a log that has it too."""
    times = Times()
    judge = Judge(plan, tolerance, times, window)
    if plan.frames:
        judge.take(Block(plan.frames, range(1, len(plan.frames) + 1)))
        judge.finish()
    return times


def judged(plan, log, tolerance, window=None, most=None, is_exact=False, also=()):
    """The judge of a log that has taken all of it; `also` takes each block too."""
    judge = Judge(plan, tolerance, Causes(plan, planned_causes(plan, tolerance, window), tolerance), window, is_exact)
    tolerance.coarse = 0
    take_all(judge, log, also)
    judge.finish()
    if log.cut:
        judge.causes.tell("cut", ["log"], ("log",), "the recording is cut here; what is before it is judged", judge.end, log.cut)
    if most is not None and log.has_times:
        tell_load(judge, most)
    return judge


def take_all(judge, log, also):
    """Has a judge take the blocks of a log. No garbage is looked for meanwhile, as next to none goes in circles."""
    progress = Progress(log)
    gc.disable()
    try:
        for block in log.blocks():
            take(judge, log, block)
            for each in also:
                each.take(block)
            progress.step()
    finally:
        gc.enable()
        progress.end()


def take(judge, log, block):
    """Has a judge take a block of a log, the times of which may turn out to be coarser than before, and the clock set back."""
    if log.format.resolution > judge.tolerance.coarse + 1:
        judge.tolerance.coarse = log.format.resolution
        judge.tolerate()
    if block.set_back:
        tell_set_back(judge, block.set_back)
    judge.take(block)


def tell_set_back(judge, set_back):
    """Tells where the recorder's clock was set back."""
    judge.causes.tell("clock-back", ["log"], ("log",), f"the recorder's clock is set back by {milliseconds(set_back.micros)}; "
                      "times behind it go on from the frame before", set_back.time, set_back.line)
    judge.begin_anew(set_back.time)


def tell_load(judge, most):
    """Tells of the windows in which the bus was fuller than it may be."""
    load = judge.bus.load
    for place, share in enumerate(load.shares(load.bits)):
        if share > most:
            judge.causes.tell("load", ["bus"], ("bus",), f"{share:.1f} % in {WINDOW // 1000} ms, and {most:g} % is allowed",
                              load.start + place * WINDOW, 1)
