"""The rules of the models that the reader of a report needs: whom a check looks at, and whom it refuses.

`lpt` decides.  This is for what a report doesn't say: whom a walk looked at and why it refused them, and whether a report is of
this trace at all.
"""
from typing import Container, Counter, Dict, List, Mapping, Optional, Sequence

from .tasks import ASLEEP, KERNEL, USER, Task, Tasks
from .trace import OWN_CHECK, Trace

MODELS = ('hybrid', 'leave-kernel', 'all-at-once', 'immediate', 'process-group')
MODE_IN_WORDS = {USER: 'in user space', KERNEL: 'in the kernel on a CPU', ASLEEP: 'off its CPU in the kernel'}
# At which events a model looks at tasks.  A walk under leave-kernel looks at nobody, so it refuses nobody.
CHECKS: Mapping[str, Sequence[str]] = {
    'hybrid': ('exit', 'idle', 'resched', 'walk'), 'leave-kernel': ('exit', 'idle'), 'all-at-once': ('stop',),
    'immediate': ('exit', 'idle', 'resched', 'walk', 'stop'), 'process-group': ('exit', 'idle', 'resched', 'walk')}

# In which modes a walk finds a task busy.
BUSY: Mapping[str, Sequence[str]] = {'hybrid': (USER, KERNEL), 'process-group': (KERNEL,)}


def group_of(model: str, number: int, task: Task) -> int:
    """The group of a task under a model."""
    if model == 'all-at-once':
        return 0
    return task.group if model == 'process-group' else number


def is_refused(model: str, check: str, mode: str, has_stale_frame: bool) -> Optional[str]:
    """Why a check of the model refuses a task, `frame` or `busy`, or None where it admits it.

    An exit or idle point is accepted with an empty stack alone, so it admits whomever it looks at.  At `resched` the task
    looks at its stack as it is; it runs, and is never busy to itself.
    """
    if check in ('exit', 'idle') or model == 'immediate':
        return None
    if has_stale_frame:
        return 'frame'
    return 'busy' if check == 'walk' and mode in BUSY.get(model, ()) else None


def own_checks(trace: Trace, model: str, refused: Container[int]) -> Dict[int, List[int]]:
    """The events at which the model looks at a group by `resched`, as the task is its only live member: by group."""
    found: Dict[int, List[int]] = {}
    if OWN_CHECK not in CHECKS[model] or not trace.knows(OWN_CHECK):
        return found
    tasks = Tasks(trace)
    living = Counter(group_of(model, number, task) for number, task in tasks.live.items())
    for event in trace.events:
        if event.number in refused or event.task is None:
            continue
        group = group_of(model, event.task, tasks.live[event.task])
        tasks.step(event)
        if event.child is not None:
            living[group_of(model, event.child, tasks.live[event.child])] += 1
        elif event.word == 'die':
            living[group] -= 1
        elif event.word == OWN_CHECK and living[group] == 1:
            found.setdefault(group, []).append(event.number)
    return found


class Levels:
    """The target of the last transition, the level that it left, and whether it is under way."""

    def __init__(self, top: int) -> None:
        self.top, self.target, self.before, self.under_way = top, 0, 0, False

    def fault(self, word: str) -> str:
        """Why a control event is refused, or nothing."""
        if word == 'reverse':
            return '' if self.under_way else 'E11'
        if self.under_way:
            return 'E10'
        return 'E12' if self.target == (self.top if word == 'enable' else 0) else ''

    def open(self, word: str) -> None:
        """Takes an accepted control event."""
        step = {'enable': self.target + 1, 'disable': self.target - 1, 'reverse': self.before}
        self.before, self.target = self.target, step[word]


def target_level(word: str) -> int:
    """The level of a report's word for one: old, new, or a number."""
    named: Dict[str, int] = {'old': 0, 'new': 1}
    return named[word] if word in named else int(word)
