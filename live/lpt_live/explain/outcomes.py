"""What became of the groups that waited at a moment, in the rest of their transition."""
from typing import Dict, Optional, Sequence

from .case import Case, Transition
from .kernel import Kernel
from .naming import Naming

CHECKS = {'exit': 'as it left the kernel', 'idle': 'at its idle point', 'resched': 'at its own check, cond_resched'}


class Outcomes:
    """The first switch of each group after an event, and each task's end."""

    def __init__(self, case: Case, naming: Naming, kernel: Optional[Kernel], transition: Transition, at: int) -> None:
        self.case, self.naming, self.kernel, self.opened = case, naming, kernel, transition.opened
        self.switches: Dict[int, int] = {}
        self.ends: Dict[int, int] = {}
        for number, groups in case.report.switched().items():
            for group in groups if at < number <= transition.end else ():
                self.switches.setdefault(group, number)
        for event in case.events[at:transition.end]:
            if event.word == 'die' and event.task is not None and event.number not in case.refused:
                self.ends[event.task] = event.number

    def of(self, group: int, members: Sequence[int], since: int) -> str:
        """What became of a group that waits since an event; nothing if it still waits."""
        number = self.switches.get(group)
        if number is not None:
            span = self.naming.span(self.opened, number)
            return (f'WENT OVER {self.naming.at(number)}, {self.how(number, group)}, {span} after the opening'
                    + self.refusals(group, since, number))
        end = self.ends.get(members[0]) if len(members) == 1 else None
        return '' if end is None else f'DIED {self.naming.at(end)}'

    def refusals(self, group: int, since: int, number: int) -> str:
        """How often it was refused in all: at each look of the model's while it waited."""
        seen = self.case.looks(group, since + 1, number - 1)
        within = ' in the recording' if since <= self.case.prologue else ''
        return f' ({self.case.count_looks(seen)}{within} refused it)' if seen else ''

    def how(self, number: int, group: int) -> str:
        """At which check it went over: by the kernel's word, else by the trace's."""
        word = self.case.events[number - 1].word
        told = self.kernel.how(number, group) if self.kernel else None
        return CHECKS.get(word, f'at a {word}') if told is None else told
