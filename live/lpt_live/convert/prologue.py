"""What was before the recording, in as few events as say it.

Who is in the kernel enters it, those off the CPU sleep; a patch that was on already has an `enable` and a walk at which
everyone, asleep and without a frame, goes over.  Where a transition was under way, it is opened, and walked over once: at that walk
exactly those tasks are kept awake, or have the frames that /proc showed, who hadn't gone over yet.
"""
from typing import Dict, Set

from ..tasks import ASLEEP, KERNEL, USER
from .stage import Opening, Stage


def tell(stage: Stage, states: Dict[int, int]) -> None:
    """Writes the prologue; `states` are those at the start, where a transition was under way."""
    for task in stage.beginning.boots:
        begin(stage, task)
    if not stage.levels.order:
        plain(stage)
    else:
        patched(stage, states)
    stage.prologue = len(stage.slots[0])


def begin(stage: Stage, task: int) -> None:
    """The mode in which a boot task is as its first record comes."""
    stage.frames[task], stage.leaving[task] = [], None
    first = stage.beginning.first.get(task)
    kind = first.kind if first else None
    if not stage.switches:
        stage.modes[task] = ASLEEP
    elif task in stage.beginning.idle:
        off = kind == 'in' or (kind is None and task in stage.beginning.busy_cpus)
        stage.modes[task] = ASLEEP if off else KERNEL
    elif kind == 'enter':
        stage.modes[task] = USER
    else:
        stage.modes[task] = ASLEEP if kind in (None, 'in') else KERNEL
        if task not in stage.reading.roster.kthreads and task not in stage.beginning.frames:
            stage.leaving[task] = 0             # it may have been on its way out


def calls_from_before(stage: Stage, task: int) -> None:
    """The calls that the task was in."""
    for function in stage.beginning.frames.get(task, ()):
        stage.call(task, 0, function.symbol)


def plain(stage: Stage) -> None:
    """No patch was on."""
    for task in stage.beginning.boots:
        if task not in stage.beginning.idle and stage.modes[task] != USER:
            stage.emit(0, f'enter {task}')
        calls_from_before(stage, task)
        if stage.modes[task] == ASLEEP:
            stage.emit(0, f'sleep {task}')


def patched(stage: Stage, states: Dict[int, int]) -> None:
    """Patches were on: everyone sleeps while they come, so that the walks switch everyone; then all are as they were."""
    prior = stage.levels.prior
    for task in stage.beginning.boots:
        if task not in stage.beginning.idle:
            stage.emit(0, f'enter {task}')
        stage.emit(0, f'sleep {task}')
    settled = len([patch for patch in stage.levels.order if not (prior and patch == prior[0])])
    for _ in range(settled + (1 if prior and prior[1] == 0 else 0)):
        lift(stage)
    stage.goal = stage.level
    waiting: Set[int] = set()
    if prior:
        waiting = {task for task in stage.beginning.boots if states.get(task, prior[1]) != prior[1]}
        open_prior(stage, waiting, prior[0], prior[1])
    for task in stage.beginning.boots:
        if task in waiting:
            if stage.modes[task] == ASLEEP and not stale(stage, task):
                stage.emit(0, f'sleep {task}')
        elif task in stage.beginning.frames or stage.modes[task] != ASLEEP:
            rouse(stage, task)


def lift(stage: Stage) -> None:
    """A patch that was on already."""
    opened = stage.emit(0, 'enable')
    walk = stage.emit(0, 'walk')
    leg = Opening(opened, 'enable', stage.level + 1, opened)
    leg.complete, leg.shown = walk, stage.here(0)
    stage.legs.append(leg)
    for task in stage.beginning.boots:
        stage.note(walk, 'over', task, 'told')
    stage.level += 1


def stale(stage: Stage, task: int) -> bool:
    """Whether a frame keeps the task back in the transition that was under way."""
    assert stage.levels.prior is not None
    functions = stage.reading.functions.of_patch[stage.levels.prior[0]]
    return any(frame.symbol in functions for frame in stage.frames[task])


def open_prior(stage: Stage, waiting: Set[int], patch: str, target: int) -> None:
    """The transition that was under way: those who hadn't gone over are awake, or asleep in what keeps them back."""
    for task in stage.beginning.boots:
        if task not in waiting:
            continue
        stage.emit(0, f'wake {task}')
        calls_from_before(stage, task)
        if stage.modes[task] == ASLEEP and stale(stage, task):
            stage.emit(0, f'sleep {task}')
        elif stage.modes[task] == USER:
            stage.emit(0, f'exit {task}')
    stage.goal = stage.level + (1 if target else -1)
    word = 'enable' if target else 'disable'
    opened = stage.emit(0, word)
    stage.legs.append(Opening(opened, word, stage.goal, opened))
    walk = stage.emit(0, 'walk')
    for task in stage.beginning.boots:
        if task not in waiting:
            stage.note(walk, 'over', task, 'told')
    stage.target = target
    stage.states = {task: 1 - target if task in waiting else target for task in stage.beginning.boots}


def rouse(stage: Stage, task: int) -> None:
    """A task that has gone over, as it was: its frames are of the version that it is on."""
    stage.emit(0, f'wake {task}')
    calls_from_before(stage, task)
    if stage.modes[task] == ASLEEP:
        stage.emit(0, f'sleep {task}')
    elif stage.modes[task] == USER:
        stage.emit(0, f'exit {task}')
