"""A trace, what the kernel decided on it, and what the engine did."""
import bisect
from typing import Dict, List, Optional, Set, Tuple

from ..errors import Refused
from ..escape import printable
from ..expectation import Expectation, KernelLeg
from ..names import Names
from ..report import Report
from ..trace import CONTROLS, Event, Trace

# What a decision of these kinds is about.
ABOUT = {'ran': ('call',), 'born': ('fork',), 'refused': CONTROLS, 'late': CONTROLS}


class Case:
    """`switched`: (event, task) of each switch of the engine; `refused`: the events that it refused."""

    def __init__(self, trace: Trace, decisions: Expectation, names: Optional[Names], report: Report) -> None:
        self.trace = trace
        self.decisions = decisions
        self.names = names
        self.report = report
        self.refused = report.refused()
        self.switched: Set[Tuple[int, int]] = {
            (event, task) for event, tasks in report.switched().items() for task in tasks}
        self.openings = sorted({leg.opened for leg in decisions.legs} | {leg.opened for leg in report.legs})
        self.check()

    def check(self) -> None:
        """Refuses decisions that are about another trace."""
        last = len(self.trace.events)
        for decision in self.decisions.decisions:
            if not (0 if decision.word == 'shown' else 1) <= decision.event <= last:
                raise Refused(f'the decisions are of another trace: {decision.line()!r}, and this one has {last} events')
            words = ABOUT.get(decision.word)
            if words and self.event(decision.event).word not in words:
                raise Refused(f'the decisions are of another trace: {decision.line()!r}, and that event is '
                              f'{self.event(decision.event).text!r}')
        for leg in self.decisions.legs:
            if not 1 <= leg.opened <= last or self.event(leg.opened).word not in CONTROLS:
                raise Refused(f'the decisions are of another trace: {leg.line()!r}, and there no transition opens')

    def event(self, number: int) -> Event:
        """An event, from 1."""
        return self.trace.events[number - 1]

    def leg(self, number: int) -> int:
        """In which leg an event is, from 1; 0 before the first."""
        return bisect.bisect_right(self.openings, number)

    def place(self, number: int) -> str:
        """An event as a text says it: `event 5 (line 9: walk)`."""
        if not number:
            return 'the beginning'
        event = self.event(number)
        return f'event {number} (line {event.line}: {event.text})'

    def who(self, task: int) -> str:
        """A task as a text says it."""
        if self.names and task in self.names.tasks:
            known = self.names.tasks[task]
            if known.kind == 'idle':
                return f'task {task} (the idle task of CPU {known.cpu})'
            return f'task {task} ({printable(known.comm)}, pid {known.pid})'
        plain = self.decisions.tasks.get(task)
        return f'task {task} ({printable(plain.name)})' if plain else f'task {task}'

    def level(self, word: str) -> int:
        """The level of a word of a report or an expectation: old, new, or a number."""
        known = [str(level) for level in range(self.trace.top + 1)] if self.trace.numbered else ['old', 'new']
        if word not in known:
            raise Refused(f'the decisions are of another trace: {word!r} is none of its levels ({", ".join(known)})')
        return known.index(word)

    def version_word(self, version: int) -> str:
        """A version as a text says it."""
        return f'version {version}' if self.trace.stacked else 'the new version' if version else 'the old version'

    def kernel_legs(self) -> Dict[int, KernelLeg]:
        """The kernel's legs by the event that opened them."""
        return {leg.opened: leg for leg in self.decisions.legs}

    def walks(self, first: int, last: int) -> List[int]:
        """The walks among these events."""
        return [event.number for event in self.trace.events[first - 1:last] if event.word == 'walk']
