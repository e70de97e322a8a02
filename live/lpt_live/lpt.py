"""Finds `lpt`, the engine's program, and asks it.

The command of the environment variable LPT, else the program that ./prove built in this checkout, else ./lpt of the
checkout (which runs the sources in a trial, a minute each time), else `lpt` on the path.
"""
import os
import shlex
import shutil
import subprocess
import sys
from typing import List, NamedTuple, Optional, Sequence

from .errors import NoEngine

HELP = ('lpt, the engine\'s program, isn\'t here: build it with ./prove at the top of the repository, '
        'or say in the environment variable LPT how it is started')
NO_TRACE = 3                    # lpt's status where its input is no trace


class Answer(NamedTuple):
    """What `lpt` wrote to both streams, and its status."""
    status: int
    output: str
    fault: str


def checkout() -> str:
    """The top of the repository that this package lies in; in a copy alone a folder that has no lpt."""
    return os.path.dirname(os.path.dirname(os.path.dirname(os.path.abspath(__file__))))


def find() -> Optional[List[str]]:
    """The command of `lpt`, or None where there is none."""
    told = os.environ.get('LPT')
    if told:
        return shlex.split(told)
    for program in (os.path.join(checkout(), 'crates', 'lpt', 'out', 'lpt'), os.path.join(checkout(), 'lpt')):
        if os.access(program, os.X_OK) and not os.path.isdir(program):
            return [program]
    program_on_path = shutil.which('lpt')
    return [program_on_path] if program_on_path else None


def answer(words: Sequence[str], text: str) -> Answer:
    """`lpt WORDS` with the text as its input, whatever its status.  NoEngine if it couldn't be started."""
    command = find()
    if command is None:
        raise NoEngine(HELP)
    if command == [os.path.join(checkout(), 'lpt')] and not os.path.exists(os.path.join(checkout(), 'crates/lpt/out/lpt')):
        print('lpt isn\'t built here, so ./lpt tries its sources: a minute each time (./prove builds it)', file=sys.stderr)
    try:
        done = subprocess.run(command + list(words), input=text.encode('utf-8', 'surrogateescape'),
                              stdout=subprocess.PIPE, stderr=subprocess.PIPE, check=False)
    except OSError as fault:
        raise NoEngine(f'{command[0]}: {fault.strerror}; {HELP}') from None
    return Answer(done.returncode, done.stdout.decode('utf-8', 'surrogateescape'),
                  done.stderr.decode('utf-8', 'replace').strip())


def failed(words: Sequence[str], got: Answer) -> NoEngine:
    """The end of a word for which `lpt` gave no output: with what lpt said."""
    said = got.fault.splitlines()[-1] if got.fault else 'it said nothing'
    return NoEngine(f'lpt {" ".join(words)} ended with status {got.status}: {said}')


def ask(words: Sequence[str], text: str) -> str:
    """The output of `lpt WORDS` on the text.  NoEngine, with what lpt said, if its status isn't 0."""
    got = answer(words, text)
    if got.status:
        raise failed(words, got)
    return got.output
