"""Rules for openings, walks, completions and refused controls."""
from typing import Dict, List, Optional, Set

from ..tasks import ASLEEP, KERNEL
from .checks import why
from .record import EADDRINUSE, EBUSY, Record
from .stage import Opening, Rule, Stage


def init(stage: Stage, place: int, _: Record) -> None:
    """klp_init_transition: from here on patch_state shows a side, though the transition opens later."""
    stage.prepared = stage.here(place)


def open_transition(stage: Stage, place: int, record: Record) -> None:
    """klp_start_transition: `enable` or `disable`; after klp_reverse_transition `reverse`.

    Linux accepts a reversal until the walk that completes the transition, though nobody may be off the target any more by
    then; such a late one is written as the `disable` or `enable` that has the same effect.
    """
    to = record.target
    plain = 'enable' if to == 1 else 'disable'
    word = 'reverse' if record.flag else plain
    if record.flag:
        stage.level, stage.goal = stage.goal, stage.level
        if all(stage.states.get(task, 1 - (stage.target or 0)) == stage.target for task in stage.live):
            word = plain
            stage.note(stage.here(place), 'late', 0, 'reverse')
    else:
        stage.goal = stage.level + (1 if to else -1)
        stage.states = {task: 1 - to for task in stage.live}
    stage.target = to
    stage.legs.append(Opening(stage.emit(place, word), word, stage.goal, None if record.flag else stage.prepared))


def walk(stage: Stage, place: int, record: Record) -> None:
    """klp_try_complete_transition: `walk`, after what its verdicts tell of the tasks.

    Linux never calls the walker itself busy: it is checked by its stack while it runs.  So it is written asleep for that
    moment: `sleep W`, `walk`, `wake W`.
    """
    for task, result in record.checks:
        if task in stage.live:
            agree_on_frames(stage, place, task, result)
            if not stage.switches and task != record.task:
                agree_on_mode(stage, place, task, result)
    looks_at_itself = any(task == record.task for task, _ in record.checks) and stage.modes[record.task] == KERNEL
    if looks_at_itself:
        stage.emit(place, f'sleep {record.task}')
    position = stage.emit(place, 'walk')
    if looks_at_itself:
        stage.emit(place, f'wake {record.task}')
        stage.note(position, 'walker', record.task)
    for task, result in record.checks:
        if task not in stage.live:
            stage.note(position, 'zombie', task, str(result))       # dead but not reaped: the walk looks at it all the same
        elif result:
            stage.note(position, 'stays', task, why(result))
        else:
            stage.note(position, 'over', task, where(stage, task))
            if stage.target is not None:
                stage.states[task] = stage.target
    stage.last_walk = position


def where(stage: Stage, task: int) -> str:
    """How a walk switched a task: of a user task also whether it was on its way to user space, or had never run."""
    if task in stage.reading.roster.kthreads or task in stage.beginning.idle:
        return 'walk'
    edge = stage.edge.get(task, False)
    return 'walk ' + ('unborn' if edge is None else 'edge' if edge else 'kernel')


def agree_on_frames(stage: Stage, place: int, task: int, result: int) -> None:
    """What a verdict tells of the frames: switched, so no frame of the moving patch is left; refused by one, so one is
    there, by the next stack that /proc showed, else of unknown name."""
    lowest = stage.lowest_moving(task)
    asleep = stage.modes[task] == ASLEEP
    if result == 0 and lowest is not None:
        if asleep:
            stage.emit(place, f'wake {task}')
        stage.log['returns told by the kernel\'s verdict'] += stage.return_to(task, place, lowest)
    elif result == EADDRINUSE and lowest is None:
        shown = shown_later(stage, place, task)
        stage.log['frames told by the kernel\'s verdict' + ('' if shown else ', of unknown name')] += 1
        stage.enter_kernel(task, place)
        if asleep:
            stage.emit(place, f'wake {task}')
        for symbol in shown or sorted(stage.moving())[:1]:
            stage.call(task, place, symbol)
    else:
        return
    if asleep:
        stage.emit(place, f'sleep {task}')


def shown_later(stage: Stage, place: int, task: int) -> Optional[List[str]]:
    """The frames of the task's next stack in /proc that has one of the moving patch."""
    moving: Set[str] = stage.moving()
    return next((symbols for at, symbols in stage.coming_stacks.get(task, ()) if at > place and moving & set(symbols)), None)


def agree_on_mode(stage: Stage, place: int, task: int, result: int) -> None:
    """Where the scheduler wasn't recorded, the verdict alone tells the mode: busy is on a CPU, any other is off it."""
    if result == EBUSY:
        stage.wake(task, place)
    elif stage.modes[task] != ASLEEP:
        stage.enter_kernel(task, place)
        stage.emit(place, f'sleep {task}')
        stage.modes[task] = ASLEEP


def complete(stage: Stage, _: int, __: Record) -> None:
    """klp_complete_transition: the walk before it found everyone over."""
    if stage.legs:
        stage.legs[-1].complete = stage.last_walk


def walked(stage: Stage, place: int, _: Record) -> None:
    """The completing walk returns: only by now has patch_state become -1."""
    if stage.legs and stage.legs[-1].complete and not stage.legs[-1].shown:
        stage.legs[-1].shown = stage.here(place)
        stage.target = None
        stage.level = stage.goal


def control(stage: Stage, place: int, record: Record) -> None:
    """A control that the kernel refused (EBUSY, EINVAL): the control, which the engine is to refuse as well.  Outside of
    a transition the kernel has reasons of its own (a disabled patch can't be enabled again): left out."""
    if stage.target is None:
        stage.log['controls refused outside of a transition'] += 1
        return
    stage.note(stage.emit(place, record.text), 'refused', 0, f'{record.text}_{record.result}')


RULES: Dict[str, Rule] = {'init': init, 'open': open_transition, 'walk': walk, 'complete': complete, 'walked': walked,
                              'control': control}
