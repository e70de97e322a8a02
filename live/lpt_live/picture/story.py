"""What a trace and its report tell together, event by event: the stretches of each task's life, and each check's look at it.

A report doesn't name whom a check refused, so this follows the rules of the models too.  It thereby holds each reply against
them: a report that isn't of this trace can't be followed, and is refused.
"""
from typing import Dict, List, NamedTuple, Optional, Set, Tuple

from .. import progress, rules
from ..errors import Refused
from ..report import Reply, Report
from ..tasks import Frame, Tasks
from ..trace import CONTROLS, SCANS, Event, Trace


class Stretch(NamedTuple):
    """From this event on a task has this level, mode and stack."""
    begin: int
    level: int
    mode: str
    frames: Tuple[Frame, ...]


class Mark(NamedTuple):
    """A check's look at a task: `kind` is switch, frame, busy, or group where only others of its group were refused."""
    event: int
    task: int
    kind: str
    frame: Optional[Frame] = None


class Leg(NamedTuple):
    """A transition: its events, and its target's level."""
    opened: int
    target: int
    complete: Optional[int]


class Life:
    """A task from its birth (0: from the start) to its death."""

    def __init__(self, number: int, group: int, born: int) -> None:
        self.number, self.group, self.born = number, group, born
        self.died: Optional[int] = None
        self.stretches: List[Stretch] = []

    @property
    def level(self) -> int:
        """Its level now."""
        return self.stretches[-1].level

    def become(self, stretch: Stretch) -> None:
        """Begins a new stretch, if something changed."""
        if not self.stretches or self.stretches[-1][1:] != stretch[1:]:
            self.stretches.append(stretch)


class Story:
    """`lives` by task, `legs`, `marks`, `refused` (event to E1 .. E12).  Refused where the report isn't of this trace."""

    def __init__(self, trace: Trace, report: Report) -> None:
        self.trace, self.model = trace, report.model
        self.lives: Dict[int, Life] = {}
        self.legs: List[Leg] = []
        self.marks: List[Mark] = []
        self.refused: Dict[int, str] = {}
        self.tasks, self.levels = Tasks(trace), rules.Levels(trace.top)
        self.off: Set[int] = set()          # the live tasks off the target
        self.members: Dict[int, Set[int]] = {}  # the live members of each group
        self.called: Dict[int, int] = {}    # the level that each call ran at, by its event
        self.versions: Dict[Tuple[str, int], int] = {}
        self.fit(report)
        for number in trace.boots:
            self.bear(number, 0, 0)
        for event in progress.over(trace.events, 'following the checks'):
            self.take(event, report.reply(event.number))
        told = [Leg(leg.opened, rules.target_level(leg.target), leg.complete) for leg in report.legs]
        if told != self.legs:
            raise Refused('the report isn\'t of this trace: its legs are others')

    def fit(self, report: Report) -> None:
        """Refused where the report can't be of this trace at first sight."""
        if report.model not in rules.MODELS:
            raise Refused(f'the report is of a model that isn\'t known: {report.model}')
        if report.version != self.trace.version:
            raise Refused(f'a report `lpreport {report.version}` is of no trace `lptrace {self.trace.version}`')
        numbers = [reply.event for reply in report.replies]
        if numbers != list(range(1, len(self.trace.events) + 1)):
            raise Refused(f'the report isn\'t of this trace: it has {len(numbers)} replies, the trace {len(self.trace.events)} '
                          'events')

    def expect(self, event: Event, what: str, ours: str, told: str) -> None:
        """Refused unless the report tells what the rules say."""
        if ours != told:
            raise Refused(f'the report isn\'t of this trace: event {event.number} (line {event.line}, {event.text}): '
                          f'{what} is {told or "none"} in the report and {ours or "none"} by the trace')

    # -- one event
    def take(self, event: Event, reply: Reply) -> None:
        """Takes the next event with its reply."""
        control = event.word in CONTROLS
        fault = self.levels.fault(event.word) if control else self.tasks.refusal(event)
        self.expect(event, 'the refusal', fault, reply.value if reply.word == 'refused' else '')
        if fault:
            self.refused[event.number] = fault
            return
        self.tasks.step(event)
        under_way = bool(self.off)
        if control:
            self.open(event)
        else:
            self.follow(event)
        self.expect(event, 'the level that ran', self.ran(event), reply.value if reply.word == 'ran' else '')
        switched = ' '.join(map(str, sorted(self.check(event))))
        self.expect(event, 'the list of groups that switched', switched, ' '.join(map(str, reply.groups)))
        completes = (under_way or control) and not self.off
        self.expect(event, 'the completion', 'here' if completes else '', 'here' if reply.complete else '')
        if completes:
            self.legs[-1] = self.legs[-1]._replace(complete=event.number)
        self.levels.under_way = bool(self.off)

    def ran(self, event: Event) -> str:
        """The level that a call runs, as a report has it."""
        if event.word != 'call':
            return ''
        level = self.called[event.number]
        return str(level) if self.trace.numbered else ('old', 'new')[level]

    def bear(self, number: int, event: int, level: int) -> None:
        """A task is there from now on."""
        task = self.tasks.live[number]
        life = Life(number, rules.group_of(self.model, number, task), event)
        life.become(Stretch(event, level, task.mode, ()))
        self.lives[number] = life
        self.members.setdefault(life.group, set()).add(number)

    def open(self, event: Event) -> None:
        """A leg opens."""
        self.levels.open(event.word)
        self.legs.append(Leg(event.number, self.levels.target, None))
        self.off = {number for number in self.tasks.live if self.lives[number].level != self.levels.target}

    def follow(self, event: Event) -> None:
        """What the event of a task does by itself, after the tasks took it."""
        number = event.task
        if number is None:
            return
        life = self.lives[number]
        if event.word == 'die':
            life.died = event.number
            self.members[life.group].discard(number)
            self.off.discard(number)
            return
        if event.child is not None:
            self.bear(event.child, event.number, life.level)
            if number in self.off:
                self.off.add(event.child)
        if event.word == 'call':
            self.called[event.number] = life.level
        task = self.tasks.live[number]
        life.become(Stretch(event.number, life.level, task.mode, tuple(task.frames)))

    # -- checks
    def check(self, event: Event) -> Set[int]:
        """The groups that switch at the event; who is looked at is marked."""
        if event.word not in rules.CHECKS[self.model]:
            return set()
        looked_at = self.off
        if event.word not in SCANS:
            assert event.task is not None
            alone = self.members[self.lives[event.task].group] == {event.task}
            looked_at = self.off & {event.task} if alone else set()
        blames = {number: self.blame(event, number) for number in sorted(looked_at)}
        held = {self.lives[number].group for number, mark in blames.items() if mark.kind != 'switch'}
        for number, mark in blames.items():
            life = self.lives[number]
            if life.group in held:
                self.marks.append(mark._replace(kind='group') if mark.kind == 'switch' else mark)
                continue
            self.marks.append(mark)
            self.off.discard(number)
            life.become(life.stretches[-1]._replace(begin=event.number, level=self.levels.target))
        return {self.lives[number].group for number in blames} - held

    def blame(self, event: Event, number: int) -> Mark:
        """The check's look at one task by itself."""
        task = self.tasks.live[number]
        stale = next((frame for frame in task.frames if self.is_stale(frame)), None)
        kind = rules.is_refused(self.model, event.word, task.mode, stale is not None)
        return Mark(event.number, number, kind or 'switch', stale if kind == 'frame' else None)

    def is_stale(self, frame: Frame) -> bool:
        """Whether the transition replaces the code of a frame."""
        return self.version(frame.symbol, self.called[frame.serial]) != self.version(frame.symbol, self.levels.target)

    def version(self, symbol: str, level: int) -> int:
        """The version of a function at a level."""
        key = (symbol, level)
        if key not in self.versions:
            self.versions[key] = self.trace.version_of(symbol, level)
        return self.versions[key]
