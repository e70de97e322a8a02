"""The probes on livepatch's own functions, and the patch_state of each task that they tell."""
from typing import Dict

from ..errors import Refused
from .lines import Fields, Line
from .reading import Handler, OpenUpdate, Reading
from .record import EAGAIN, UNDEFINED

PENDING = 1 << 13                   # TIF_PATCH_PENDING of x86-64
KTHREAD = 0x200000                  # PF_KTHREAD
RECENT = 2000                       # records within which a reversal's start follows


def target_of(reading: Reading, fields: Fields) -> int:
    """klp_target_state, where the probe could read it."""
    return fields.number('target') if 'target' in fields else reading.states.target


def init(reading: Reading, task: int, line: Line) -> None:
    """klp_init_transition: the target, and each task's state on the other side."""
    fields = line.fields()
    state = fields.number('state')
    reading.states.begin(state)
    replace = 'replace' in fields and bool(fields.number('replace'))
    reading.add('init', task, line, state=state, module=fields.text('mod'), flag=replace)


def reverse(reading: Reading, task: int, line: Line) -> None:
    """klp_reverse_transition.  Before 6.4 it turns the target first; from then on only once the flags are cleared, so that
    a check in between still goes to the old target."""
    states = reading.states
    if states.target != UNDEFINED and not reading.has_own_check:
        states.target = 1 - states.target
    reading.add('reverse', task, line)


def start(reading: Reading, task: int, line: Line) -> None:
    """klp_start_transition: the pending flags are set, one by one."""
    fields = line.fields()
    if reading.has_own_check and 'target' not in fields and any(
            record.kind == 'reverse' and record.task == task for record in reading.records[-RECENT:]):
        raise Refused('klp_target_state can\'t be read on this kernel, so a reversal\'s moment isn\'t known')
    reading.states.target = target_of(reading, fields)
    reading.add('start', task, line, target=reading.states.target)


def walk(reading: Reading, task: int, line: Line) -> None:
    """klp_try_complete_transition begins: a walk over all tasks, made by this one."""
    reading.walkers[task] = False
    reading.states.target = target_of(reading, line.fields())
    reading.add('walk', task, line, target=reading.states.target)


def complete(reading: Reading, task: int, line: Line) -> None:
    """klp_complete_transition: the walk found everyone over.  States are -1 only at its end."""
    reading.walkers[task] = True
    reading.add('complete', task, line)


def walked(reading: Reading, task: int, line: Line) -> None:
    """The walk is over, and with it the transition if it was completed in it."""
    if reading.walkers.pop(task, False):
        reading.states.target = UNDEFINED
    reading.add('walked', task, line)


def in_walk(reading: Reading, task: int) -> bool:
    """Whether a task is in a walk of its own, before that completes the transition."""
    return reading.walkers.get(task) is False


def check(reading: Reading, task: int, line: Line) -> None:
    """klp_check_and_switch_task begins.  From 6.4 on a task that isn't in a walk looks at itself, at cond_resched
    (__klp_sched_try_switch): its own open update is over by then."""
    if not in_walk(reading, task):
        close_update(reading, task, line)
    fields = line.fields()
    checked_task = reading.roster.number(fields.number('pid'), fields.number('on') if 'on' in fields else line.cpu)
    reading.checks[task] = (checked_task, fields.number('state'))


def checked(reading: Reading, task: int, line: Line) -> None:
    """The verdict: 0, EBUSY, EADDRINUSE, EINVAL; of klp_try_switch_task, on kernels where it is probed, yes or no."""
    subject, was = reading.checks.pop(task, (0, UNDEFINED))
    if not subject:
        return                          # it began before the recording
    fields, states = line.fields(), reading.states
    result = fields.number('ret') if 'ret' in fields else 0 if fields.number('ok') & 1 else EAGAIN
    state = states.target if result == 0 else was
    if not in_walk(reading, task):
        if subject != task:
            raise Refused(f'record {line.place}: task {task} checks task {subject} outside of a walk')
        states.of_task[subject] = state
        reading.add('resched', task, line, result=result, state=state, was=was)
        return
    overtake_update(reading, subject, was, result)
    states.of_task[subject] = state
    reading.add('check', task, line, about=subject, result=result, state=state, was=was)


def overtake_update(reading: Reading, subject: int, was: int, result: int) -> None:
    """A check of a task whose own update has begun (the probe at its entry fires before the flag is cleared): the update
    takes effect after the check, or not at all if the check switched the task."""
    opened = reading.updates.get(subject)
    if opened is None or was == reading.states.target:
        return
    if opened.record is not None:
        reading.forget(opened.record)
        opened.record = None
        reading.log['updates overtaken by a check'] += 1
    opened.pending = opened.pending and result != 0


def update(reading: Reading, task: int, line: Line) -> None:
    """klp_update_patch_state begins: at the kernel's exit of a user task, or at an idle task's point.  It does something
    only if the flag is pending."""
    fields = line.fields()
    subject = reading.roster.number(fields.number('pid'), line.cpu)
    record = reading.add('update', subject, line, state=fields.number('state'), own=subject == task,
                         flag=bool(fields.number('flags') & PENDING))
    reading.updates[task] = OpenUpdate(subject, record.flag, record)


def close_update(reading: Reading, task: int, line: Line) -> None:
    """The update that this task is in, if it is in one, is over by this line."""
    opened, states = reading.updates.pop(task, None), reading.states
    if opened is None:
        return
    state = opened.state
    if opened.record is None:           # a check overtook it
        state = states.of_task.get(opened.task, state)
        reading.add('update', opened.task, line, state=state, flag=opened.pending, own=opened.task == task)
    if opened.pending and states.target != UNDEFINED:
        state = states.target
    states.of_task[opened.task] = state
    reading.add('updated', opened.task, line, state=state)


def copy(reading: Reading, task: int, line: Line) -> None:
    """klp_copy_process, under the lock of the tasks' list: the child gets its parent's state and flag."""
    fields = line.fields()
    child = reading.roster.newborn(fields.number('pid'))
    reading.roster.tgid[child] = fields.number('tgid')
    if fields.number('flags') & KTHREAD:
        reading.roster.kthreads.add(child)
    state = reading.states.at_birth(task)
    reading.states.of_task[child] = state
    reading.add('copy', task, line, about=child, state=state, flag=fields.number('tgid') != fields.number('pid'))


def release(reading: Reading, _: int, line: Line) -> None:
    """release_task: the kernel's list of tasks doesn't have it any more."""
    fields = line.fields()
    subject = reading.roster.number(fields.number('pid'), line.cpu)
    reading.add('release', subject, line, state=fields.number('state'))


def load(reading: Reading, task: int, line: Line) -> None:
    """klp_enable_patch returns: a module's load was refused if not with 0."""
    result = line.fields().number('ret')
    if result:
        reading.add('control', task, line, text='enable', result=result)


def ctl(reading: Reading, task: int, line: Line) -> None:
    """enabled_store begins: a write to /sys/kernel/livepatch/PATCH/enabled."""
    reading.controls[task] = line.fields().text('val').strip('" ')


def ctld(reading: Reading, task: int, line: Line) -> None:
    """enabled_store returns; what it accepts is told by the transition that it opens."""
    written = reading.controls.pop(task, None)
    result = line.fields().number('ret')
    if result < 0 and written is not None:
        reading.add('control', task, line, text='disable' if written == '0' else 'enable', result=result)


def plainly(kind: str) -> Handler:
    """A handler for a record that has nothing but its moment."""
    def handler(reading: Reading, task: int, line: Line) -> None:
        reading.add(kind, task, line)
    return handler


HANDLERS: Dict[str, Handler] = {
    'init': init, 'reverse': reverse, 'start': start, 'started': plainly('started'), 'walk': walk, 'walked': walked,
    'complete': complete, 'force': plainly('force'), 'signals': plainly('signals'), 'check': check, 'checked': checked,
    'update': update, 'copy': copy, 'release': release, 'load': load, 'ctl': ctl, 'ctld': ctld}
