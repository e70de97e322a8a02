"""A trace text (`lptrace 1`, `2` or `3`): its parts, the line of each event, the trace cut at an event.

What stands here reads the shape of lines alone.  Whether a text is a trace, and which of its lines is at fault and
why, is for `lpt` to say: ask it first, then read.
"""
from typing import Dict, Iterable, List, NamedTuple, Optional

from .errors import Refused

VERSIONS = (1, 2, 3)
OWN_CHECK = 'resched'           # a word of `lptrace 3` alone
TASK_WORDS = ('call', 'ret', 'sleep', 'wake', 'enter', 'exit', 'idle', OWN_CHECK, 'fork', 'die')
SCANS = ('walk', 'stop')
CONTROLS = ('enable', 'disable', 'reverse')
ARGUMENTS = {'call': 2, 'fork': 3, **{word: 1 for word in TASK_WORDS if word not in ('call', 'fork')},
             **{word: 0 for word in SCANS + CONTROLS}}


class Event(NamedTuple):
    """One event: its number from 1, its line from 1, and its words."""
    number: int
    line: int
    words: List[str]

    @property
    def word(self) -> str:
        """What happens: call, walk, enable, .."""
        return self.words[0]

    @property
    def task(self) -> Optional[int]:
        """The task that does it; None of a scan or a control."""
        return int(self.words[1]) if len(self.words) > 1 else None

    @property
    def symbol(self) -> Optional[str]:
        """The function of a call."""
        return self.words[2] if self.words[0] == 'call' else None

    @property
    def child(self) -> Optional[int]:
        """The task that a fork makes."""
        return int(self.words[2]) if self.words[0] == 'fork' else None

    @property
    def shares(self) -> bool:
        """Whether a fork makes a thread."""
        return self.words[0] == 'fork' and self.words[3] == 'share'

    @property
    def text(self) -> str:
        """The event as its line has it."""
        return ' '.join(self.words)


class Trace:
    """A trace: `version` 1 to 3, `symbols`, `patches` (level to functions), `boots` (task to class), `events`."""

    def __init__(self, version: int = 1) -> None:
        self.version = version
        self.symbols: List[str] = []
        self.patches: Dict[int, List[str]] = {}
        self.boots: Dict[int, str] = {}
        self.events: List[Event] = []
        self.header: List[str] = [f'lptrace {version}']

    @property
    def numbered(self) -> bool:
        """Whether the text numbers its patches, so that levels and versions are numbers."""
        return self.version > 1

    @property
    def top(self) -> int:
        """The highest level."""
        return max(self.patches, default=0)

    @property
    def stacked(self) -> bool:
        """Whether there are several patches, so that a level has to be told by its number."""
        return self.top > 1

    def knows(self, word: str) -> bool:
        """Whether a word of an event is one of this version of the text."""
        return word != OWN_CHECK or self.version == 3

    def take(self, line: str, number: int) -> None:
        """Takes the next line; `number` is its number in the text."""
        words = line.split(' ')
        if words[0] == 'sym' and len(words) == 2:
            self.symbols.append(words[1])
        elif words[0] == 'patch' and len(words) == (3 if self.numbered else 2):
            self.patches.setdefault(int(words[1]) if self.numbered else 1, []).append(words[-1])
        elif words[0] == 'boot' and len(words) == 3:
            self.boots[int(words[1])] = words[2]
        elif ARGUMENTS.get(words[0]) == len(words) - 1 and self.knows(words[0]):
            self.events.append(Event(len(self.events) + 1, number, words))
            return
        else:
            raise Refused(f'line {number} is none of a trace: {line!r}')
        if self.events:
            raise Refused(f'line {number} belongs before the first event: {line!r}')
        self.header.append(line)

    def line_of(self, number: int) -> int:
        """The line of an event; 0 of the moment before the first."""
        return self.events[number - 1].line if number else 0

    def cut(self, number: int, more: Iterable[str] = ()) -> str:
        """The text up to and with this event, and further lines after it."""
        return '\n'.join([*self.header, *(event.text for event in self.events[:number]), *more]) + '\n'

    def text(self) -> str:
        """The whole text."""
        return self.cut(len(self.events))

    def version_of(self, symbol: str, level: int) -> int:
        """Which version of a function runs at a level: the highest patch at or below it that has the function, or 0."""
        return max((k for k, functions in self.patches.items() if k <= level and symbol in functions), default=0)


def parse(text: str) -> Trace:
    """The trace of a text; Refused with the line that can't be read."""
    lines = text.split('\n')
    if lines[0] not in [f'lptrace {version}' for version in VERSIONS]:
        raise Refused(f'this is no trace: its first line is {lines[0][:40]!r}')
    if lines.pop():
        raise Refused(f'line {len(lines) + 1} has no end: the trace is cut')
    trace = Trace(int(lines[0][-1]))
    for number, line in enumerate(lines[1:], 2):
        try:
            trace.take(line, number)
        except ValueError:
            raise Refused(f'line {number} is none of a trace: {line!r}') from None
    return trace
