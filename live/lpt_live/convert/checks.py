"""Rules for the checks that a task makes of itself: at the kernel's exit, at an idle point, at cond_resched."""
from typing import Dict

from ..errors import Refused
from ..tasks import ASLEEP, KERNEL, USER
from .record import EADDRINUSE, EAGAIN, EBUSY, EINVAL, Record
from .stage import Rule, Stage

WHY = {EBUSY: 'busy', EADDRINUSE: 'frame', EINVAL: 'unreliable', EAGAIN: 'somehow'}


def why(result: int) -> str:
    """The reason of a refusal, as an expectation has it."""
    return WHY.get(result, str(result))


def update(stage: Stage, place: int, record: Record) -> None:
    """klp_update_patch_state of the task itself: `exit` (from user space `enter`, `exit`), of an idle task `idle`.

    It stands before signals are delivered and task work is done, and looks at no stack: in the kernel all frames are
    gone there.  It does something only if the flag is still set: a task that a walk switched meanwhile calls it in vain.
    """
    task = record.task
    if not record.own:
        raise Refused(f'{record}: another task updates its patch state')
    if stage.frames[task]:
        stage.enter_kernel(task, place)
        stage.drop_frames(task, place)
    if task in stage.beginning.idle:
        if stage.modes[task] != KERNEL:
            raise Refused(f'{record}: an idle task at its point, off its CPU')
        word = 'idle'
        position = stage.emit(place, f'idle {task}')
    else:
        stage.enter_kernel(task, place)
        word = 'exit'
        position = stage.emit(place, f'exit {task}')
        stage.modes[task] = USER
        stage.leaving[task] = None
    if record.flag and stage.target is not None and record.state != stage.target:
        stage.note(position, 'over', task, word)
        stage.states[task] = stage.target
    else:
        stage.note(position, 'idle-update', task, str(record.state))


def resched(stage: Stage, place: int, record: Record) -> None:
    """`resched` (Linux 6.4 and later): at cond_resched a task with its flag set checks its own stack, while it runs."""
    task = record.task
    if task in stage.beginning.idle:
        raise Refused(f'{record}: an idle task in cond_resched')
    if stage.modes[task] == ASLEEP:
        raise Refused(f'{record}: it is off its CPU')
    stage.enter_kernel(task, place)
    if stage.leaving[task] is not None:
        stage.leaving[task] = place
    agree_on_frames(stage, place, record)
    over = record.result == 0
    stage.log[f'rescheds {"over" if over else "stay"}, {"kthread" if task in stage.reading.roster.kthreads else "user"}'] += 1
    position = stage.emit(place, f'resched {task}')
    if not over:
        stage.note(position, 'stays', task, why(record.result))
        return
    stage.note(position, 'over', task, 'resched')
    if stage.target is not None:
        stage.states[task] = stage.target


def agree_on_frames(stage: Stage, place: int, record: Record) -> None:
    """What the verdict tells of the frames: switched, so no frame of the moving patch is left; refused by one, so one is
    there that no probe saw (which doesn't come up where calls are recorded)."""
    task, lowest = record.task, stage.lowest_moving(record.task)
    if record.result == 0 and lowest is not None:
        stage.log['returns told by the kernel\'s verdict at cond_resched'] += stage.return_to(task, place, lowest)
    if record.result == EADDRINUSE and lowest is None:
        stage.log['frames told by the kernel\'s verdict at cond_resched'] += 1
        stage.call(task, place, sorted(stage.moving())[0])


RULES: Dict[str, Rule] = {'update': update, 'resched': resched}
