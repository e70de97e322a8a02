"""What it means that an event was refused: the event's line, what it needs, and what its task was in."""
from typing import Dict, List, NamedTuple, Optional

from ..rules import MODE_IN_WORDS
from ..tasks import ASLEEP, KERNEL, NEEDS, USER, Tasks, tasks_after
from ..trace import CONTROLS, Event
from .case import Case
from .naming import Naming, plural

# What usually lacks, by the mode that the event needs and the mode that its task is in.
LACKS = {
    (KERNEL, USER): 'an `enter {task}` before it', (KERNEL, ASLEEP): 'a `wake {task}` before it',
    (USER, KERNEL): 'an `exit {task}` before it', (USER, ASLEEP): 'a `wake {task}` and an `exit {task}` before it',
    (ASLEEP, KERNEL): 'a `sleep {task}` before it', (ASLEEP, USER): 'an `enter {task}` and a `sleep {task}` before it'}


class Meaning(NamedTuple):
    """What is so at the refused event, and what usually is the mistake."""
    fact: str
    usually: str


class Refusals:
    """The refused events of a case, in words."""

    def __init__(self, case: Case, naming: Naming) -> None:
        self.case, self.naming, self.refused = case, naming, case.refused

    def counts(self) -> str:
        """How many of each cause: E6 3 times, E8 once."""
        by_cause: Dict[str, int] = {}
        for why in self.refused.values():
            by_cause[why] = by_cause.get(why, 0) + 1
        return ', '.join(f'{why} {"once" if count == 1 else f"{count} times"}' for why, count in sorted(
            by_cause.items(), key=lambda item: int(item[0][1:])))

    def lines(self) -> List[str]:
        """The page's lines about them; none where nothing was refused."""
        if not self.refused:
            return []
        first = min(self.refused)
        event, why = self.case.events[first - 1], self.refused[first]
        meaning = self.meaning(event, why)
        verb = 'was' if len(self.refused) == 1 else 'were'
        return [f'CAUTION: {len(self.refused)} of {plural(len(self.case.events), "event")} {verb} refused and changed nothing '
                f'({self.counts()}); what follows may not be what was meant.',
                f'  The first is line {event.line} (event {first}), `{event.text}`: {why}. {meaning.fact}.',
                f'  Usually {meaning.usually}; docs/mistakes.md has more.']

    def meaning(self, event: Event, why: str) -> Meaning:
        """What the refusal of an event means."""
        if event.word in CONTROLS:
            return self.of_control(event, why)
        tasks = tasks_after(self.case.trace, event.number - 1, self.refused)
        if why in ('E1', 'E3', 'E4'):
            return self.of_number(event, why)
        return self.of_task(event, why, tasks)

    def of_control(self, event: Event, why: str) -> Meaning:
        """A refused enable, disable or reverse."""
        opened = [leg for leg in self.case.report.legs if leg.opened < event.number]
        if why == 'E10':
            begin = self.naming.moment(opened[-1].opened)
            return Meaning(f'The transition that opened at {begin} isn\'t complete, and there is one at a time',
                           'something is missing before it that lets the last tasks switch, or `reverse` was meant')
        if why == 'E11':
            end = opened[-1].complete if opened else None
            done = f'the last one was complete at {self.naming.moment(end)}' if end else 'none opened'
            return Meaning(f'No transition is under way to be turned round: {done}',
                           'the transition was complete earlier than was thought, so that `enable` or `disable` is wanted')
        further = 'above the last patch' if event.word == 'enable' else 'below level 0'
        return Meaning(f'There is no level {further}',
                       f'`{event.word}` stands here once too often, or the header is to be `lptrace 2`')

    def of_number(self, event: Event, why: str) -> Meaning:
        """A task's number that can't be had."""
        if why == 'E1':
            died = self.last('die', 1, event, event.task)
            if died:
                return Meaning(f'Task {event.task} ended at {self.naming.moment(died.number)}',
                               'its number was used again: give the later task another one')
            return Meaning(f'There is no task {event.task} by then',
                           f'`boot {event.task} normal` or the fork that made it is missing')
        if why == 'E3':
            return Meaning(f'A task\'s number is from 1 to 65,535, and {event.child} isn\'t', 'the tasks are to be numbered anew')
        fork = self.last('fork', 2, event, event.child)
        since = f'from {self.naming.moment(fork.number)} on' if fork else 'from the start'
        return Meaning(f'The number {event.child} was in use {since}, and each is used once',
                       'its pid was used again: give the later task another number')

    def last(self, word: str, place: int, before: Event, number: Optional[int]) -> Optional[Event]:
        """The last accepted event of this word before another, about this task."""
        for event in reversed(self.case.events[:before.number - 1]):
            if event.word == word and int(event.words[place]) == number and event.number not in self.refused:
                return event
        return None

    def of_task(self, event: Event, why: str, tasks: Tasks) -> Meaning:
        """An event that its task couldn't do as it was."""
        task, need = tasks.live[event.task or 0], NEEDS[event.word]
        who = f'task {event.task}'
        if why == 'E5':
            other = 'idle' if task.kind == 'idle' else 'normal'
            kind = 'an idle' if need.kind == 'idle' else 'a normal'
            return Meaning(f'`{event.word}` is an event of {kind} task, and {who} is {other}',
                           f'`boot {event.task}` has the wrong class')
        if why == 'E6':
            return Meaning(f'`{event.word}` needs a task {MODE_IN_WORDS[need.mode]}, and {who} is {MODE_IN_WORDS[task.mode]}',
                           f'{LACKS[need.mode, task.mode].format(task=event.task)} is missing')
        if why == 'E7':
            return Meaning(f'{who.capitalize()} has 100 frames on its stack', 'a `ret` is missing in a loop of calls')
        if why == 'E8':
            return Meaning(f'{who.capitalize()} has no frame on its stack to return from',
                           'its `call` is missing, or there is a `ret` too many')
        stack = ', '.join(f'{frame.symbol} ({self.naming.time(frame.serial)})' for frame in reversed(task.frames))
        return Meaning(f'{who.capitalize()} still has frames on its stack: {stack}',
                       f'{plural(len(task.frames), "`ret`")} of it before this is missing')
