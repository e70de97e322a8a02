"""Rules for the scheduler's records, system calls, births and ends: record to events of its task."""
from typing import Dict

from ..errors import Refused
from ..tasks import ASLEEP, KERNEL, USER
from .record import Record
from .stage import Rule, Stage


def enter(stage: Stage, place: int, record: Record) -> None:
    """A system call: `enter`, and before it the `exit` of the way out that must have been."""
    stage.leave_kernel(record.task, place)
    stage.enter_kernel(record.task, place)


def exit_call(stage: Stage, place: int, record: Record) -> None:
    """A system call is over: no event yet, since the task is still in the kernel.  Its `exit` is written at
    klp_update_patch_state, or here once a later record shows that the task was in user space.  Its calls have returned."""
    stage.enter_kernel(record.task, place)
    stage.drop_frames(record.task, place)
    stage.leaving[record.task] = place


def off_cpu(stage: Stage, place: int, record: Record) -> None:
    """`sleep`; from user space `enter`, `sleep` (preempted, or a fault that blocked); in state Z or X `die`."""
    task = record.task
    if task in stage.dead:
        return
    if record.text in 'XZ' and task not in stage.beginning.idle:
        stage.enter_kernel(task, place)
        stage.die(task, place)
        return
    stage.edge[task] = stage.modes[task] == USER or stage.leaving[task] is not None
    if stage.modes[task] == USER:
        stage.emit(place, f'enter {task}')
        stage.leaving[task] = place
    elif stage.modes[task] != KERNEL:
        raise Refused(f'{record}: it is off its CPU already')
    stage.emit(place, f'sleep {task}')
    stage.modes[task] = ASLEEP


def on_cpu(stage: Stage, place: int, record: Record) -> None:
    """`wake`.  A task that was on its way out still is."""
    task = record.task
    if stage.modes[task] != ASLEEP:
        raise Refused(f'{record}: it is on a CPU already')
    stage.wake(task, place)
    if stage.leaving[task] is not None:
        stage.leaving[task] = place


def dying(stage: Stage, place: int, record: Record) -> None:
    """A task in do_exit won't be in user space again."""
    stage.enter_kernel(record.task, place)
    stage.leaving[record.task] = None


def copy(stage: Stage, place: int, record: Record) -> None:
    """`fork P C own` or `share`, and `sleep C`: the child isn't on a CPU yet, and a walk may switch it before it ever runs."""
    task, child = record.task, record.about
    stage.enter_kernel(task, place)
    fork = stage.emit(place, f'fork {task} {child} {"share" if record.flag else "own"}')
    stage.emit(place, f'sleep {child}')
    stage.modes[child], stage.leaving[child], stage.frames[child] = ASLEEP, None, []
    stage.edge[child] = None
    stage.live.add(child)
    stage.born.add(child)
    if stage.target is not None:
        stage.note(fork, 'born', child, 'over' if record.state == stage.target else 'waiting')
        stage.states[child] = record.state


def release(stage: Stage, place: int, record: Record) -> None:
    """release_task before the last switch: `die`, since the kernel's list doesn't have the task any more."""
    task = record.task
    if task not in stage.live or task in stage.dead:
        return
    stage.wake(task, place)
    stage.enter_kernel(task, place)
    stage.die(task, place)
    stage.log['released before the last switch'] += 1


RULES: Dict[str, Rule] = {'enter': enter, 'exit': exit_call, 'out': off_cpu, 'in': on_cpu, 'dying': dying, 'copy': copy,
                              'release': release}
