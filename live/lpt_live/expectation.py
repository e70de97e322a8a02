"""BASE.expect: what the kernel decided, by its own probes and /proc alone (`lpexpect 1`).

| Line | Meaning |
|---|---|
| `kernel ..`, `task N KIND NAME` | KIND is user, kthread or idle |
| `leg L WORD SIDE [from F] [complete K shown S]` | opened by event L; patch_state was shown from after event F on; the kernel's completing walk is event K; -1 is shown from after event S on |
| `over E T HOW [WHERE]` | the kernel switched T at event E: exit, idle, walk, resched; told, if /proc showed it; WHERE, of user tasks at walks: kernel, edge (on its way to user space), unborn (never run yet) |
| `stays E T WHY` | at E the kernel refused T: frame (EADDRINUSE), busy (EBUSY), unreliable (EINVAL) |
| `ran E T V` | the version that ran at call E |
| `shown A B T V` | /proc/T/patch_state, read after event A and before event B + 1, gave V; none where there was no such task |
| `born E C over` or `waiting` | the child's state at its birth against the target |
| `refused E 0 WHAT` | the kernel refused this control |
| `late E reverse` | a reversal that found nobody off the old target any more |
| `walker E T` | T made walk E and was checked in it by its stack, though on a CPU |
| `zombie E T RET` | walk E looked at T, dead but not reaped |
| `idle-update E T S` | klp_update_patch_state in vain |
"""
from typing import Dict, List, NamedTuple, Optional, Tuple

from .errors import Refused

FIRST_LINE = 'lpexpect 1'
DECISIONS = {'over': 2, 'stays': 3, 'ran': 3, 'shown': 4, 'born': 3, 'refused': 3, 'late': 2, 'walker': 2, 'zombie': 3,
             'idle-update': 3}
# Where a line ends in one of a few words.
LAST_WORDS = {'shown': ('-1', '0', '1', 'none'), 'born': ('over', 'waiting'), 'late': ('reverse',)}


class Known(NamedTuple):
    """A task of the expectation: its kind and name."""
    kind: str
    name: str


class KernelLeg(NamedTuple):
    """A transition as the kernel had it; see `leg` above."""
    opened: int
    word: str
    side: str
    begins: Optional[int] = None
    complete: Optional[int] = None
    shown: Optional[int] = None

    def line(self) -> str:
        """Its line."""
        text = f'leg {self.opened} {self.word} {self.side}'
        for key, value in (('from', self.begins), ('complete', self.complete), ('shown', self.shown)):
            if value is not None:
                text += f' {key} {value}'
        return text


class Decision(NamedTuple):
    """Any other line: `after` is A of a `shown` and else its event; `rest` are the words after the task."""
    word: str
    event: int
    task: int
    rest: Tuple[str, ...]
    after: int

    def line(self) -> str:
        """Its line."""
        if self.word == 'shown':
            return ' '.join(['shown', str(self.after), str(self.event), str(self.task), *self.rest])
        if self.word == 'late':
            return ' '.join(['late', str(self.event), *self.rest])
        return ' '.join([self.word, str(self.event), str(self.task), *self.rest])


class Expectation:
    """`kernel` (its names), `tasks`, `legs`, `decisions` in the order of the lines."""

    def __init__(self, kernel: str) -> None:
        self.kernel = kernel
        self.tasks: Dict[int, Known] = {}
        self.legs: List[KernelLeg] = []
        self.decisions: List[Decision] = []

    def take(self, words: List[str]) -> None:
        """Takes a line after the two first; ValueError, IndexError or KeyError where it is none."""
        if words[0] == 'task':
            self.tasks[int(words[1])] = Known(words[2], words[3])
        elif words[0] == 'leg':
            more = dict(zip(words[4::2], map(int, words[5::2])))
            self.legs.append(KernelLeg(int(words[1]), words[2], words[3], more.pop('from', None),
                                       more.pop('complete', None), more.pop('shown', None)))
            if more:
                raise ValueError(words)
        else:
            self.decisions.append(decision(words))

    def text(self) -> str:
        """The file's text."""
        lines = [FIRST_LINE, f'kernel {self.kernel}']
        lines += [f'task {number} {known.kind} {known.name}' for number, known in self.tasks.items()]
        lines += [leg.line() for leg in self.legs] + [decision.line() for decision in self.decisions]
        return '\n'.join(lines) + '\n'


def decision(words: List[str]) -> Decision:
    """The decision of a line's words."""
    if len(words) - 1 < DECISIONS[words[0]] or words[-1] not in LAST_WORDS.get(words[0], (words[-1],)):
        raise ValueError(words)
    if words[0] == 'shown':
        return Decision('shown', int(words[2]), int(words[3]), tuple(words[4:]), int(words[1]))
    if words[0] == 'late':
        return Decision('late', int(words[1]), 0, tuple(words[2:]), int(words[1]))
    return Decision(words[0], int(words[1]), int(words[2]), tuple(words[3:]), int(words[1]))


def parse(text: str) -> Expectation:
    """The expectation of a text; Refused with the line that can't be read."""
    lines = text.split('\n')
    if lines[0] != FIRST_LINE:
        raise Refused(f'these are no decisions of a kernel: the first line is {lines[0][:40]!r}, not {FIRST_LINE!r}')
    if lines.pop():
        raise Refused(f'line {len(lines) + 1} has no end: the decisions are cut')
    if len(lines) < 2 or not lines[1].startswith('kernel '):
        raise Refused('line 2 doesn\'t name the kernel')
    expectation = Expectation(lines[1][len('kernel '):])
    for number, line in enumerate(lines[2:], 3):
        try:
            expectation.take(line.split(' '))
        except (ValueError, IndexError, KeyError):
            raise Refused(f'line {number} is no decision: {line!r}') from None
    return expectation
