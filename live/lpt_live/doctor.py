"""Says what this kernel lacks for a recording, and what an earlier recorder left in it.  Changes nothing.

Status 0 where a recording is possible, 5 where not.  What makes a recording poorer, but not impossible, is said too.
With --clean, what a killed recorder left is taken away.
"""
import argparse

from .errors import DONE, NotPossible
from .record.kernel import Kernel
from .record.system import System
from .record.tracefs import at_work, clear, left_behind


def add_arguments(parser: argparse.ArgumentParser) -> None:
    """The word's arguments."""
    parser.add_argument('--clean', action='store_true', help='take away what a killed recorder left')
    parser.add_argument('--all', action='store_true', help='say what is there, too')


def run(options: argparse.Namespace) -> int:
    """Looks, and says what it saw."""
    return examine(System(), options.clean, options.all)


def examine(system: System, clean: bool = False, everything: bool = False) -> int:
    """The word, on any machine's files."""
    kernel = Kernel(system)
    for finding in kernel.findings:
        if finding.there and everything:
            print(f'there:   {finding.what}')
        elif not finding.there:
            print(f'{"missing" if finding.needed else "poorer"}: {finding.missing}')
    if kernel.tracefs:
        leftovers(system, kernel.tracefs, clean)
    lacks = len(kernel.lacks)
    if lacks:
        raise NotPossible(f'{lacks} things are missing, and without them nothing can be recorded')
    print('a recording is possible')
    return DONE


def leftovers(system: System, tracefs: str, clean: bool) -> None:
    """What stands in the kernel of an earlier recorder, or of one that is at work; taken away if asked."""
    if not clean and at_work(system, tracefs):
        print('a recorder is at work now')
        return
    for each in clear(system, tracefs) if clean else left_behind(system, tracefs):
        print(f'{"taken away" if clean else "left by a killed recorder"}: {each}')
    if left_behind(system, tracefs):
        print('`lpt-live doctor --clean` takes it away, as the next `record` would')
