"""The words of the program: each with its own `--help`, imported only when it is used."""
import argparse
import contextlib
import importlib
import os
import sys
import traceback
from types import ModuleType
from typing import List, NamedTuple, Optional

from .errors import FAILED, INTERRUPTED, USAGE, Ended, NotPossible


class Word(NamedTuple):
    """A word of the program: the module of the package that does it, and what it is for in one line."""
    module: str
    purpose: str


WORDS = {
    'now': Word('now', 'who waits at this moment and where, from /proc and /sys alone'),
    'doctor': Word('doctor', 'what this kernel lacks for a recording; changes nothing'),
    'record': Word('record', 'record the transitions of the running kernel'),
    'convert': Word('convert', 'a recording as a trace for lpt, with names and the kernel\'s own decisions'),
    'explain': Word('explain', 'who held a transition open, since when, why, and what would help'),
    'verify': Word('verify', 'hold each decision of the kernel against the engine\'s'),
    'bundle': Word('bundle', 'make one file of this program, to be copied to another machine'),
}


def overview() -> str:
    """The help of the program as a whole."""
    width = max(map(len, WORDS))
    return '\n'.join(
        ['usage: lpt-live WORD [--help] ..', '', 'Transitions of a real kernel: recorded, explained, held against the engine.', '']
        + [f'  {name:{width}}  {word.purpose}' for name, word in WORDS.items()]
        + ['', 'lpt-live WORD --help says more about a word.', ''])


def load(name: str) -> ModuleType:
    """The module of a word.  Only its own absence is told so: a fault within it must not look like a missing word."""
    module = f'lpt_live.{WORDS[name].module}'
    try:
        return importlib.import_module(module)
    except ModuleNotFoundError as fault:
        if fault.name != module:
            raise
        raise NotPossible(f'this copy of the program is without the word {name}') from None


def main(arguments: Optional[List[str]] = None) -> int:
    """Does one word; the status of the process."""
    words = sys.argv[1:] if arguments is None else arguments
    if words[:1] in (['--help'], ['-h'], ['help']):
        print(overview(), end='')
        return 0
    if not words or words[0] not in WORDS:
        print(overview(), end='', file=sys.stderr)
        return USAGE
    try:
        return perform(words[0], words[1:])
    except Ended as end:
        print(f'lpt-live {words[0]}: {end}', file=sys.stderr)
        return end.status
    except KeyboardInterrupt:
        return INTERRUPTED
    except BrokenPipeError:         # who read the output went away: there is nobody to tell
        return without_output()
    except OSError as fault:
        print(f'lpt-live {words[0]}: {fault}', file=sys.stderr)
        return without_output()
    except Exception:               # pylint: disable=broad-except
        # Python's own status would be 1, and of `verify` that says that the kernel was wrong.
        traceback.print_exc()
        return FAILED


def without_output() -> int:
    """Standard output can't be written any more; the interpreter would try once more at its end."""
    if sys.stdout is not None:
        with contextlib.suppress(OSError, ValueError):
            os.dup2(os.open(os.devnull, os.O_WRONLY), sys.stdout.fileno())
    return FAILED


def perform(name: str, words: List[str]) -> int:
    """Parses the further words as the word's module wants them, and does it."""
    module = load(name)
    text = (module.__doc__ or WORDS[name].purpose).strip()
    parser = argparse.ArgumentParser(prog=f'lpt-live {name}', description=text,
                                     formatter_class=argparse.RawDescriptionHelpFormatter)
    module.add_arguments(parser)
    try:
        options = parser.parse_args(words)
    except SystemExit as end:       # argparse has said what is wrong, or the help
        return int(end.code or 0)
    if sys.stdout is None:
        raise OSError('standard output is closed')
    status = module.run(options)
    sys.stdout.flush()
    return int(status)
