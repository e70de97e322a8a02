"""What the engine knew at an event: each task's level, its frames and their levels, what it waits for."""
from typing import Dict, Iterator, List, NamedTuple, Optional, Tuple

from .. import progress
from ..tasks import ASLEEP, USER, Tasks
from ..trace import Event
from .case import Case
from .differences import Frame


class Keeps(NamedTuple):
    """Why the engine doesn't switch a task at an event: in words, and the stale frame if it is one."""
    text: str
    frame: Optional[Frame]


class Engine:
    """The engine's state, event by event, as its report tells it: `events` goes through them."""

    def __init__(self, case: Case) -> None:
        self.case = case
        self.tasks = Tasks(case.trace)
        self.levels: Dict[int, int] = {task: 0 for task in case.trace.boots}
        self.frame_levels: Dict[int, int] = {}          # by the event that called it
        self.target = 0
        self.moving = False                             # a transition is under way
        self.targets = {leg.opened: case.level(leg.target) for leg in case.report.legs}
        self.over: Dict[int, int] = {}                  # in this leg: a task to the event that switched it

    def events(self) -> Iterator[Tuple[Event, bool]]:
        """Each event, after its own effect and before its switches; and whether it was accepted."""
        for event in progress.over(self.case.trace.events, 'holding decisions'):
            reply = self.case.report.reply(event.number)
            if reply.word == 'refused':
                yield event, False
                continue
            self.take(event, reply.value)
            yield event, True
            for task in reply.groups:
                self.levels[task] = self.target
                self.over[task] = event.number
            if reply.complete:
                self.moving = False

    def take(self, event: Event, value: str) -> None:
        """The event's own effect."""
        self.tasks.step(event)
        if event.word == 'call':
            self.frame_levels[event.number] = self.case.level(value)
        elif event.word == 'fork':
            self.levels[int(event.words[2])] = self.levels[int(event.words[1])]
        elif event.word == 'die':
            del self.levels[int(event.words[1])]
        if event.number in self.targets:
            self.target, self.moving, self.over = self.targets[event.number], True, {}

    def on_target(self, task: int) -> bool:
        """Whether the task is on the target's level."""
        return self.levels.get(task) == self.target

    def stale(self, task: int) -> Optional[Frame]:
        """The task's lowest stale frame: another version of its function belongs to the target."""
        trace = self.case.trace
        for frame in self.tasks.live[task].frames:
            version = trace.version_of(frame.symbol, self.frame_levels[frame.serial])
            if version != trace.version_of(frame.symbol, self.target):
                return Frame(frame.symbol, self.case.version_word(version), frame.serial, trace.line_of(frame.serial))
        return None

    def keeps(self, event: Event, task: int) -> Keeps:
        """Why the task isn't switched at this event."""
        live = self.tasks.live.get(task)
        if live is None:
            return Keeps('it isn\'t there', None)
        if task in self.over:
            return Keeps(f'the engine had switched it at {self.case.place(self.over[task])}', None)
        if not self.moving or self.on_target(task):
            return Keeps('it has nowhere to go: no transition waits for it', None)
        frame = self.stale(task)
        if frame:
            return Keeps(f'it had a stale frame: {frame.function}, {frame.version}, called by {self.case.place(frame.event)}', frame)
        if event.word == 'walk' and live.mode != ASLEEP:
            return Keeps('it was in user space' if live.mode == USER else 'it was on a CPU in the kernel', None)
        return Keeps('this event is no check of it', None)


def answer(case: Case, queries: Dict[int, List[int]]) -> Dict[Tuple[int, int], Keeps]:
    """Why the engine keeps tasks at events: (event, task) to the reason."""
    engine, found = Engine(case), {}
    for event, _ in engine.events():
        for task in queries.get(event.number, ()):
            found[event.number, task] = engine.keeps(event, task)
    return found
