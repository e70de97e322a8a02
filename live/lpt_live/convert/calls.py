"""Rules for calls and versions.

Returns aren't probed: the kernel calls the stack of a task with a return probe on it unreliable, so such probes hold up
the very transition.  A frame's end is told by what comes after: the next call at or above its place on the stack, the
return from the system call, the check at the exit, or the kernel's verdict.
"""
from typing import Dict, Optional

from .record import Record
from .stage import Rule, Stage


def call(stage: Stage, place: int, record: Record) -> None:
    """`call`, after the `ret` of each frame whose return address lies at or below the new one's: the stack grows down, so
    those are gone."""
    task = record.task
    stage.enter_kernel(task, place)
    stage.leaving[task] = None
    frames = stage.frames[task]
    height = len(frames)
    while height and record.sp is not None and frames[height - 1].sp is not None and below(frames[height - 1].sp, record.sp):
        height -= 1
    stage.log['returns told by what came after'] += stage.return_to(task, place, height)
    position = stage.call(task, place, record.text, record.sp)
    stage.last_call.pop(task, None)
    if stage.reading.functions.versions_known and record.text in stage.patched:
        note = stage.note(position, 'ran', task, '0' if stage.numbered else 'old')
        stage.last_call[task] = (record.text, note)


def below(frame: Optional[int], other: int) -> bool:
    """Whether a frame's return address lies at or below another's."""
    return frame is not None and frame <= other


def new_version(stage: Stage, _: int, record: Record) -> None:
    """A new function is entered right after the old one's entry: that call ran the new version."""
    symbol, note = stage.last_call.pop(record.task, ('', None))
    if note is None or symbol != record.text:
        stage.log['new versions without a call'] += 1
        if note is not None:
            stage.last_call[record.task] = (symbol, note)
        return
    note.rest = str(stage.levels.of_patch.get(record.module, 1)) if stage.numbered else 'new'


RULES: Dict[str, Rule] = {'call': call, 'newcall': new_version}
