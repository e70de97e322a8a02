"""Records the livepatch transitions of the running kernel, with tracefs and /proc alone.

Start it before the patch is loaded (--module reads the functions from the module's file, --function names them), or
while a transition is stuck: then the functions are found in /sys/kernel/livepatch.  It ends when the transition is
complete, after --seconds, or at an interrupt (SIGINT, SIGTERM, SIGHUP), and leaves one file.

By default it records what livepatch itself does: who waits, since when, why, and when it ends, at hardly any cost.
With --no-syscalls it records switches and calls of the patched functions too, with --all system calls as well: a
million records a minute on a busy machine.

It sets probes and an instance of tracefs of its own, and takes both away at its end.  After a kill that it can't
catch, the next `record` takes away what was left (`doctor` says so, and with --clean takes it away).
"""
import argparse
import os

from ..errors import DONE, NotPossible
from .kernel import Kernel
from .recorder import ALL, LEAST, NO_SYSCALLS, Recorder, Wanted
from .system import System
from .tell import tell
from .tracefs import clear


def add_arguments(parser: argparse.ArgumentParser) -> None:
    """The word's arguments."""
    parser.add_argument('-o', '--output', default='transition.rec', metavar='FILE', help='default: transition.rec')
    parser.add_argument('--module', action='append', default=[], metavar='M.ko', help='a patch that is to be loaded')
    parser.add_argument('--function', action='append', default=[], metavar='[MODULE:]F', help='a function of such a patch')
    parser.add_argument('--all', action='store_true', help='everything: all models can be compared on it')
    parser.add_argument('--no-syscalls', action='store_true', help='everything but system calls')
    parser.add_argument('--seconds', type=float, default=0.0, metavar='N', help='end after so long')
    parser.add_argument('--until', choices=('complete', 'stop'), default='complete',
                        help='end with the transition (default), or at an interrupt alone')
    parser.add_argument('--sample', type=float, default=1.0, metavar='S', help='seconds between looks at all tasks (1); more in a long recording')
    parser.add_argument('--buffer', type=int, default=16384, metavar='KB', help='buffer of each CPU (16384)')


def wanted(options: argparse.Namespace) -> Wanted:
    """What the words ask for."""
    detail = NO_SYSCALLS if options.no_syscalls else ALL if options.all else LEAST
    return Wanted(options.output, options.module, options.function, detail, options.seconds, options.until,
                  options.sample, options.buffer)


def run(options: argparse.Namespace) -> int:
    """Records, and says what was lost."""
    return record(System(), wanted(options))


def record(system: System, what: Wanted) -> int:
    """The word, on any machine's files."""
    kernel = Kernel(system)
    if kernel.lacks:
        raise NotPossible('this kernel can\'t be recorded, as it lacks:\n' +
                          '\n'.join(f'  {each}' for each in kernel.lacks))
    for each in clear(system, kernel.tracefs):
        tell(f'left by an earlier recorder, taken away: {each}')
    try:
        said = Recorder(system, kernel, what).run()
    except OSError as fault:                    # a full disk, or a kernel that refuses what its files promise
        raise NotPossible(f'{fault.filename or "the recording"}: {fault.strerror}') from None
    for line in said:
        tell(line)
    tell(f'{what.output}: {os.path.getsize(what.output)} bytes')
    return DONE
