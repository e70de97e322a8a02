"""Who holds a transition open at this moment, and where: from /proc and /sys alone, without any tracing.

What /proc shows becomes a small trace (the tasks, the patched functions on their stacks, the opening, one walk), and
`lpt` says of it who waits and why.  Where there is no `lpt`, what /proc shows is told alone, and marked so; with
--trace FILE it can be explained elsewhere (`lpt-live explain FILE`).

Status 0 whether or not a transition is under way.  Root sees all tasks; others see their own alone.
"""
import argparse
import os

from .. import files
from ..errors import DONE, Ended, NotPossible
from ..progress import say
from ..record.patches import LIVEPATCH
from ..record.system import System
from .page import by_engine, by_proc
from .seen import Seen, look


def add_arguments(parser: argparse.ArgumentParser) -> None:
    """The word's arguments."""
    parser.add_argument('--trace', metavar='FILE', help='write the trace to FILE, and the tasks\' names beside it '
                        '(FILE.names; of X.lptrace X.names)')


def run(options: argparse.Namespace) -> int:
    """Looks, and says who waits."""
    return tell(System(), options.trace)


def tell(system: System, trace: str = '') -> int:
    """The word, on any machine's files."""
    if not system.exists(LIVEPATCH):
        raise NotPossible(f'{LIVEPATCH} isn\'t there: this kernel has no livepatch (CONFIG_LIVEPATCH)')
    seen = look(system)
    if seen.moving is None:
        print('no patch is in transition')
        return DONE
    if not system.privileged():
        say('lpt-live now: without root you see your own tasks alone; others may wait')
    if trace:
        write(seen, trace)
    print(page(seen), end='')
    return DONE


def page(seen: Seen) -> str:
    """By the engine, where it can be had and a trace can say what is seen; else by /proc alone."""
    try:
        return by_engine(seen)
    except Ended as reason:
        return by_proc(seen, str(reason))


def write(seen: Seen, trace: str) -> None:
    """The trace, and the names of its tasks beside it."""
    got = seen.converted()
    base = trace[:-len('.lptrace')] if trace.endswith('.lptrace') else trace
    files.write_all({trace: got.trace, base + '.names': got.names.text()})
    say(f'{os.path.basename(trace)}: {len(got.names.tasks)} tasks')
