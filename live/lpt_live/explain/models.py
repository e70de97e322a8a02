"""How the transition would have ended under each of the five models."""
from typing import Dict, List, NamedTuple, Optional

from .. import lpt
from ..names import Who
from ..tasks import ASLEEP, USER, Tasks, tasks_after
from ..trace import OWN_CHECK
from .case import MOST_EVENTS, Case, Transition
from .naming import Naming, RecordedNaming

NAMES = {'hybrid': 'hybrid (Linux)', 'leave-kernel': 'leave-kernel (kGraft)', 'all-at-once': 'all-at-once (Ksplice)',
         'immediate': 'immediate (no condition)', 'process-group': 'process-group'}


class Row(NamedTuple):
    """One model's line."""
    model: str
    result: str


class Comparison(NamedTuple):
    """What is compared, and the rows; without rows `title` says why."""
    title: str
    rows: List[Row]


class LegTrace:
    """A transition as a trace of its own, since `lpt compare` tells a trace's first one alone.

    It is right where all tasks are on one side at the opening, so for `enable` and `disable` and not for `reverse`: each task is
    put into the mode and the frames that it had, and the patch that moves is the only one.  `numbers` has for each of its events
    the one in the whole trace.
    """

    def __init__(self, case: Case, transition: Transition, known: Dict[int, Who]) -> None:
        self.case, self.known = case, known
        self.tasks: Tasks = tasks_after(case.trace, transition.opened - 1, case.refused)
        self.leaders = {known[task].pid: task for task in self.tasks.live if task in known and known[task].kind == 'user'}
        version, height = (3, '1 ') if case.trace.knows(OWN_CHECK) else (1, '')
        header = [f'lptrace {version}', *(f'sym {symbol}' for symbol in case.trace.symbols),
                  *(f'patch {height}{symbol}' for symbol in case.trace.patches[transition.patch])]
        opening = self.boots(header) + self.states()
        self.numbers = [0] * len(opening)
        self.lines = opening
        self.take('enable', transition.opened)
        for event in case.events[transition.opened:transition.end]:
            if event.number in case.refused:        # here it might be accepted, as a further enable is
                continue
            self.take(event.text, event.number)
            if event.word == 'walk' and case.names:
                self.take('stop', event.number)
        self.text = '\n'.join(header + self.lines) + '\n'

    def take(self, text: str, number: int) -> None:
        """One more event."""
        self.lines.append(text)
        self.numbers.append(number)

    def boots(self, header: List[str]) -> List[str]:
        """The tasks: a process's first one is a boot task and forks its threads, so that they share its group."""
        first: Dict[int, int] = {}
        forks = []
        for number, task in sorted(self.tasks.live.items(), key=lambda item: (self.process(item[0]) != item[0], item[0])):
            process = self.process(number)
            if task.kind == 'normal' and process in first:
                forks.append(f'fork {first[process]} {number} share')
                continue
            if task.kind == 'normal':
                first[process] = number
                forks.append(f'enter {number}')
            header.append(f'boot {number} {task.kind}')
        return sorted(forks)        # the word enter comes before fork

    def process(self, number: int) -> int:
        """The process of a task: by the recording, else by the trace's forks."""
        if not self.case.names:
            return self.tasks.live[number].group
        known = self.known.get(number)
        if known is None or known.kind != 'user':
            return number
        return self.leaders.get(known.tgid, number)

    def states(self) -> List[str]:
        """The frames and modes; all normal tasks are in the kernel by now."""
        lines = []
        for number, task in self.tasks.live.items():
            lines += [f'call {number} {frame.symbol}' for frame in task.frames]
            lines += {ASLEEP: [f'sleep {number}'], USER: [f'exit {number}']}.get(task.mode, [])
        return lines


def compare(case: Case, naming: Naming, transition: Transition) -> Comparison:
    """The transition under each model."""
    if case.names is None and transition.leg == case.report.legs[0]:
        return Comparison('THE SAME EVENTS under each model:', rows(case, naming, transition, case.text, None))
    if case.events[transition.opened - 1].word == 'reverse':
        return Comparison('THE OTHER MODELS: not told for a transition that was turned round, since its start depends on the '
                          'model.', [])
    if case.model != 'hybrid':
        return Comparison(f'THE OTHER MODELS: under {case.model} told for the first transition alone.', [])
    known = naming.tasks if isinstance(naming, RecordedNaming) else {}
    own = LegTrace(case, transition, known)
    if len(own.numbers) > MOST_EVENTS:
        return Comparison('THE OTHER MODELS: not told, since the transition as a trace of its own would be too long.', [])
    tried = ' (with a Ksplice stop tried at each of the kernel\'s walks)' if case.names else ''
    return Comparison(f'THE SAME EVENTS under each model{tried}:', rows(case, naming, transition, own.text, own.numbers))


def rows(case: Case, naming: Naming, transition: Transition, text: str, numbers: Optional[List[int]]) -> List[Row]:
    """The lines of `lpt compare`, in words."""
    got = []
    for line in lpt.ask(['compare'], text).splitlines()[2:]:
        model, word, count = line.split()[:3]
        if word == 'complete':
            event = numbers[int(count) - 1] if numbers else int(count)
            told = f'complete {naming.at(event)}, {naming.span(transition.opened, event)} after the opening'
        elif model == 'all-at-once':
            scans = [case.events[number - 1].word for number in case.scans(transition.opened, transition.end)]
            stops = 'walk' in scans if numbers and case.names else 'stop' in scans
            told = 'not complete: ' + ('at each stop some task was in a patched function' if stops else 'there was no stop')
        else:
            told = f'not complete, {count} still {"waits" if count == "1" else "wait"}'
        got.append(Row(model, told + caution(case, model, word == 'complete')))
    return got


def caution(case: Case, model: str, complete: bool) -> str:
    """What a recording without scheduling or calls can't tell of a model."""
    if case.names is None:
        return ''
    if model == 'leave-kernel' and case.names['light']:
        return ' (a light recording: kernel exits are missing, so this is too late)'
    if model == 'all-at-once' and complete and not case.names.get('calls_known', True):
        return ' (calls weren\'t recorded, so this may be too early)'
    return ''
