"""When a waiting task goes over, by the model and what holds it, and what would help it."""
from typing import Optional, Sequence

from ..report import Reason
from ..tasks import ASLEEP, USER, Frame
from .hints import by_signal, what_ends
from .naming import Naming, RecordedNaming

NEXT = {
    'leave-kernel': 'at its next return to user space', 'immediate': 'at its next check of any kind',
    'all-at-once': 'at a stop that finds no task in replaced code',
    'process-group': 'at a walk that finds each task of its group asleep or in user space, none in replaced code'}


def goes_over(model: str, kind: str, newest: Optional[Reason], frame: Optional[Frame], function: str) -> str:
    """When it goes over."""
    if model == 'leave-kernel' and kind == 'idle':
        return 'at its idle point'
    if model != 'hybrid':
        alone = ', or as it leaves the kernel if it is alone in its group'
        return NEXT[model] + (alone if model == 'process-group' else '')
    if newest is None:
        return 'at the next walk that finds it off its CPU' + {'idle': ', or at its idle point', 'kthread': ''}.get(
            kind, ', or at its next return to user space')
    if newest.word == 'hold' and frame is None:
        return f'at the next walk that finds it off its CPU{"" if kind == "kthread" else ", or at its next return to user space"}'
    if newest.word == 'hold' and kind == 'kthread':
        return f'at the first walk after {function} returns (a kernel thread never returns to user space)'
    if newest.word == 'hold':
        check = 'at its idle point' if kind == 'idle' else 'as it leaves the kernel'
        return f'once {function} has returned: {check}, or at a walk'
    return {'idle': 'when its CPU goes through the idle loop', 'kthread': 'at the first walk that finds it off its CPU'}.get(
        kind, 'at its next return to user space, interrupts included, or at a walk that finds it off its CPU')


def advice(naming: Naming, newest: Optional[Reason], frame: Optional[Frame], function: str, stack: Sequence[str], state: str,
           task: int, mode: str) -> str:
    """What would help it, where that is known; of a recording alone, since a plain trace is of no machine."""
    if not isinstance(naming, RecordedNaming) or newest is None:
        return ''
    kind = naming.kind(task)
    if newest.word == 'busy':
        return 'any interrupt of its CPU (without a tick, nohz_full: a signal)' if mode == USER and kind == 'user' else ''
    if frame is None:
        return ''
    if mode != ASLEEP:
        return 'it runs, so this may be a matter of time'
    ends = what_ends(function, stack, naming.moving) or 'let what it waits for happen'
    return ends + ('; signals don\'t reach it' if kind == 'kthread' else by_signal(state, naming.known(task).pid))

