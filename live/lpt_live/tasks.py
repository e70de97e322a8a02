"""The tasks of a trace, event by event: mode, frames, group.  What the trace says, whatever the model."""
from typing import Container, Dict, List, NamedTuple, Optional, Set

from .trace import Event, Trace

USER, KERNEL, ASLEEP = 'user', 'kernel', 'asleep'
MODE_AFTER = {'enter': KERNEL, 'exit': USER, 'sleep': ASLEEP, 'wake': KERNEL}
LAST_TASK = 65535
DEEPEST = 100                   # frames


class Need(NamedTuple):
    """What an event needs of its task: its kind (None: either), its mode, and how many frames it may have."""
    kind: Optional[str]
    mode: str
    least: int = 0
    most: int = DEEPEST


NEEDS = {'call': Need(None, KERNEL, 0, DEEPEST - 1), 'ret': Need(None, KERNEL, 1), 'sleep': Need(None, KERNEL),
         'wake': Need(None, ASLEEP), 'enter': Need('normal', USER), 'exit': Need('normal', KERNEL, 0, 0),
         'idle': Need('idle', KERNEL, 0, 0), 'resched': Need('normal', KERNEL), 'fork': Need('normal', KERNEL),
         'die': Need('normal', KERNEL, 0, 0)}


class Frame(NamedTuple):
    """A call that hasn't returned: the function, and the event that called it (the frame's serial)."""
    symbol: str
    serial: int


class Task:
    """A live task: `kind` (normal or idle), `mode`, `frames` (the oldest first), `group` under process-group."""
    __slots__ = ('kind', 'mode', 'frames', 'group')

    def __init__(self, kind: str, mode: str, group: int) -> None:
        self.kind = kind
        self.mode = mode
        self.frames: List[Frame] = []
        self.group = group


class Tasks:
    """The live tasks after the events so far; `step` takes the next one that wasn't refused."""

    def __init__(self, trace: Trace) -> None:
        self.live: Dict[int, Task] = {
            number: Task(kind, USER if kind == 'normal' else KERNEL, number) for number, kind in trace.boots.items()}
        self.used: Set[int] = set(self.live)

    def refusal(self, event: Event) -> str:
        """Why an event of a task is refused under every model, E1 to E9; nothing of one that is accepted.

        Of `enable`, `disable` and `reverse` (E10 to E12) it depends on the model: that is for the engine to say.
        """
        if event.task is None:
            return ''
        task, need = self.live.get(event.task), NEEDS[event.word]
        if task is None:
            return 'E1'
        if event.word == 'fork' and not 1 <= int(event.words[2]) <= LAST_TASK:
            return 'E3'
        if event.word == 'fork' and int(event.words[2]) in self.used:
            return 'E4'
        if need.kind not in (None, task.kind):
            return 'E5'
        if need.mode != task.mode:
            return 'E6'
        if not need.least <= len(task.frames) <= need.most:
            return {'call': 'E7', 'ret': 'E8'}.get(event.word, 'E9')
        return ''

    def step(self, event: Event) -> None:
        """Takes an accepted event."""
        if event.task is None:
            return
        task = self.live[event.task]
        if event.word == 'call':
            task.frames.append(Frame(event.words[2], event.number))
        elif event.word == 'ret':
            task.frames.pop()
        elif event.word == 'fork':
            child = int(event.words[2])
            self.used.add(child)
            self.live[child] = Task('normal', KERNEL, task.group if event.shares else child)
        elif event.word == 'die':
            del self.live[event.task]
        elif event.word in MODE_AFTER:
            task.mode = MODE_AFTER[event.word]


def tasks_after(trace: Trace, number: int, refused: Container[int] = ()) -> Tasks:
    """The tasks after this event; `refused` are the events that the engine refused, which change nothing."""
    tasks = Tasks(trace)
    for event in trace.events[:number]:
        if event.number not in refused:
            tasks.step(event)
    return tasks
