"""The records of tracefs: a line of text each, in one order.

The recorder's clock is `counter`, one number for all CPUs, so the stamp of a line is its place among all lines, whatever
the CPUs' clocks do.
"""
import re
import sys
from typing import Counter, Dict, List, NamedTuple, Sequence, Union

from ..errors import Refused

LINE = re.compile(r'^\s*(.+)-(\d+)\s+\[(\d+)\]\s+(\S+)\s+(\d+): (\w+): ?(.*)$')
FIELD = re.compile(r'(\w+)=(?:"([^"]*)"|(0x[0-9a-f]+|-?\d+)|(\S+))')
INTERRUPT_FLAGS = 'hHsSzZ'          # the third flag: in a hard or soft interrupt, or an NMI


class Line(NamedTuple):
    """A record: `place` counts from 1 in the order of the clock; `name` is the probe's or the tracepoint's."""
    place: int
    pid: int
    cpu: int
    flags: str
    name: str
    rest: str

    @property
    def in_interrupt(self) -> bool:
        """Whether an interrupt handler was recorded, which borrows the task that it interrupted."""
        return len(self.flags) > 2 and self.flags[2] in INTERRUPT_FLAGS

    def fields(self) -> 'Fields':
        """What a probe fetched: `name=value` after its places in parentheses."""
        if not self.rest.startswith('('):
            return Fields(self, {})
        return Fields(self, {name: int(number, 0) if number else word or quoted
                             for name, quoted, number, word in FIELD.findall(self.rest)})


class Fields:
    """The values that a probe fetched; Refused where one is missing or couldn't be fetched."""

    def __init__(self, line: Line, values: Dict[str, Union[int, str]]) -> None:
        self.line = line
        self.values = values

    def __contains__(self, name: str) -> bool:
        return name in self.values

    def number(self, name: str) -> int:
        """A number."""
        value = self.values.get(name)
        if not isinstance(value, int):
            raise Refused(f'record {self.line.place} ({self.line.name}) has no number {name}: {self.line.rest}')
        return value

    def text(self, name: str) -> str:
        """A text; a number is one too."""
        if name not in self.values:
            raise Refused(f'record {self.line.place} ({self.line.name}) has no {name}: {self.line.rest}')
        return str(self.values[name])


def parse(texts: Sequence[str], log: Counter[str]) -> List[Line]:
    """The records in their order.  Refused where the kernel says that it lost some: no decision is sure any more."""
    found: List[Line] = []
    for text in texts:
        if not text or text[0] == '#' or text == '"':       # a header; the rest of a written value's newline
            continue
        match = LINE.match(text)
        if match:
            found.append(Line(int(match[5]), int(match[2]), int(match[3]), sys.intern(match[4]), sys.intern(match[6]), match[7]))
        elif 'LOST' in text:
            raise Refused(f'the recording has lost records ({text.strip()}): record again with a larger buffer or fewer probes')
        else:
            log['unread lines'] += 1
    found.sort(key=lambda line: line.place)
    return [line._replace(place=place) for place, line in enumerate(found, 1)]
