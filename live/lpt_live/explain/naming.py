"""How a page names tasks, moments and levels: by the lines of a plain trace, or by what a recording knows."""
from typing import List, Optional, Sequence, Tuple

from ..errors import Usage
from ..escape import printable
from ..names import Names, Who
from ..trace import Trace
from .case import Case, Transition
from .clock import Clock


def plural(count: int, word: str, words: Optional[str] = None) -> str:
    """A count of things."""
    return f'{count} {word if count == 1 else words or word + "s"}'


class Naming:
    """The names of a plain trace: task 102, line 19 (event 12), 11 events."""

    def __init__(self, case: Case) -> None:
        self.case, self.trace = case, case.trace

    def who(self, task: int) -> str:
        """A task."""
        return f'task {task}'

    def short(self, task: int) -> str:
        """A task in front of its bar."""
        return f'task {task}'

    def columns(self, task: int) -> str:
        """A task in front of its row in a timeline: 22 letters."""
        return f'task {task}'.rjust(22)

    def kind(self, task: int) -> str:
        """What a task is: `user`, `kthread`, `idle`, or `normal` where the trace alone doesn't tell the first two apart."""
        return self.trace.boots.get(task, 'normal')

    def time(self, event: int) -> str:
        """When an event was."""
        return f'line {self.trace.line_of(event)}'

    def moment(self, event: int) -> str:
        """When an event was, with its number."""
        return f'{self.time(event)} (event {event})'

    def at(self, event: int) -> str:
        """At a moment."""
        return f'at {self.moment(event)}'

    def span(self, first: int, last: int) -> str:
        """How long it was from one event to another."""
        return plural(last - first, 'event')

    def refused_at(self, checks: str, events: Sequence[int], busy: bool) -> str:
        """At which checks a task was refused."""
        if len(events) == 1:
            return f'refused{" as busy" if busy else ""} at event {events[0]} ({self.time(events[0])})'
        return (f'refused{" as busy" if busy else ""} at events {events[0]} to {events[-1]} ({checks}, lines '
                f'{self.trace.line_of(events[0])} to {self.trace.line_of(events[-1])})')

    def level(self, level: int) -> str:
        """A level in words."""
        if not self.trace.stacked:
            return ('the original functions', 'the patched functions')[level]
        return f'level {level}' + ('' if level else ' (nothing patched)')

    def patch(self, number: int) -> str:
        """A patch by its number."""
        return f'patch {number}'

    def event_at(self, word: str) -> int:
        """The event of `--at`: a number, or `line:N`."""
        number = word[len('line:'):] if word.startswith('line:') else word
        if not (number.isascii() and number.isdigit()):
            raise Usage(f'--at {word}: an event\'s number is wanted, or line:N')
        if number == word:
            return int(number)
        found = [event.number for event in self.trace.events if event.line == int(number)]
        if not found:
            raise Usage(f'--at {word}: this line is no event')
        return found[0]

    def task_of(self, word: str) -> int:
        """The group of `--certificate G`."""
        if not (word.isascii() and word.isdigit()):
            raise Usage(f'--certificate {word}: the number of a group is wanted')
        return int(word)


class RecordedNaming(Naming):
    """The names of a recording: cat (pid 98), 05:03:44.3 (event 236), 0.7 s."""

    def __init__(self, case: Case, names: Names) -> None:
        super().__init__(case)
        self.names, self.tasks, self.clock = names, names.tasks, Clock(names)
        self.begun: Optional[float] = None      # when the transition began, if the kernel's log knows it
        self.moving = ''                        # the patch that it moves

    def known(self, task: int) -> Who:
        """What the recording knows of a task."""
        return self.tasks.get(task) or Who(task, task, 'user', '?')

    def who(self, task: int) -> str:
        known = self.known(task)
        if known.kind == 'idle':
            return f'the idle task of CPU {known.cpu}'
        more = ', thread of %d' % known.tgid if known.kind == 'user' and known.tgid != known.pid else ''
        more += ', kernel thread' if known.kind == 'kthread' else ''
        more += ', the recorder itself' if task == self.names.get('me') else ''
        return f'{printable(known.comm)} (pid {known.pid}{more})'

    def short(self, task: int) -> str:
        known = self.known(task)
        return f'idle, CPU {known.cpu}' if known.kind == 'idle' else f'{printable(known.comm)[:15]} {known.pid}'

    def columns(self, task: int) -> str:
        known = self.known(task)
        if known.kind == 'idle':
            return f'{"idle":>14} {f"cpu{known.cpu}":>7}'
        return f'{printable(known.comm)[:14]:>14} {known.pid:>7}'

    def kind(self, task: int) -> str:
        return self.known(task).kind

    def time(self, event: int) -> str:
        seconds = self.clock.when(event)
        return 'before the recording' if seconds is None else self.clock.of_day(seconds)

    def at(self, event: int) -> str:
        return self.moment(event)

    def refused_at(self, checks: str, events: Sequence[int], busy: bool) -> str:
        return f'{checks} found it {"busy" if busy else "there"}, the last {self.time(events[-1])}'

    def stack(self, task: int, event: int, called: Optional[int]) -> Tuple[List[str], str]:
        """The last stack that /proc showed of a task up to an event, and its state; nothing that is older than what the task did.

        In a function that was called at an event any look since then shows it, whatever the task did within.
        """
        since = self.trace.events[self.names.prologue:event]
        last = max((one.number for one in since if task in (one.task, one.child)), default=0)
        begin = last if called is None else 0 if called <= self.names.prologue else called
        rows = [row for row in self.names['stacks'].get(str(task), []) if begin <= row[0] <= event]
        states = [row[2] for row in rows if row[0] >= last and len(row) > 2 and row[2] != '?']
        return [printable(entry) for entry in rows[-1][1]] if rows else [], states[-1] if states else ''

    def span(self, first: int, last: int) -> str:
        begin, end = self.clock.when(first), self.clock.when(last)
        if end is None:
            return 'some time'
        known = begin if begin is not None else self.begun
        start = known if known is not None else self.clock.seconds[0]
        return ('' if known is not None else 'more than ') + f'{max(0.0, end - start):.1f} s'

    def level(self, level: int) -> str:
        if not self.trace.stacked or not level:
            return super().level(level)
        return f'level {level} ({self.patch(level)} on)'

    def patch(self, number: int) -> str:
        return printable(self.patch_name(number))

    def patch_name(self, number: int) -> str:
        """A patch's name; a trace of one patch may be of a machine that has more."""
        return str(self.names['patches'][number - 1 if self.trace.stacked else -1])

    def functions(self, number: int) -> List[str]:
        """The functions of a patch."""
        return [printable(function) for function in self.names['functions'][self.patch_name(number)]]

    @staticmethod
    def printable(text: str) -> str:
        """A text of the recording, made harmless."""
        return printable(text)

    def event_at(self, word: str) -> int:
        return self.clock.event_at(word) if ':' in word and not word.startswith('line:') else super().event_at(word)

    def task_of(self, word: str) -> int:
        """The task of `--certificate PID`: pids are used again, so it must be the only one."""
        number = super().task_of(word)
        found = [task for task, known in self.tasks.items() if known.pid == number and known.kind != 'idle']
        if not found:
            raise Usage(f'--certificate {word}: no task of the recording has this pid')
        waits = [task for task in found for leg in self.case.report.legs if task in [c.group for c in leg.certificates]]
        return waits[0] if waits else found[-1]

    def open(self, transition: Transition) -> None:
        """Looks up when the transition began: by its event, or by the kernel's log where it was before the recording."""
        self.begun = self.clock.when(transition.opened)
        self.moving = name = self.patch_name(transition.patch)
        told = [seconds for seconds, text in self.names.get('messages', [])
                if f'\'{name}\'' in text and 'starting' in text and self.clock.seconds and seconds < self.clock.seconds[0]]
        if self.begun is None and told:
            self.begun = float(told[-1])
