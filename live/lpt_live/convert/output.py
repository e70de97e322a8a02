"""The texts of a conversion: events get their numbers, and what was noted at a position its event's."""
import re
from typing import Any, Dict, List

from ..errors import Refused
from ..escape import printable
from ..expectation import Decision, Expectation, KernelLeg, Known
from ..names import VERSION
from .roster import TOP
from .stage import Opening, Position, Stage

MOST_EVENTS = 1000000           # of a trace
ENTRY_PROBE = re.compile(r'f\d+')


class TooLong(Refused):
    """A trace of more events than `lpt` takes."""


class Output:
    """`trace` (its lines), `expectation`, `names` of what stands on a stage."""

    def __init__(self, stage: Stage) -> None:
        self.stage = stage
        self.start: List[int] = []      # how many events stand before those of each record
        self.events = 0
        for slot in stage.slots:
            self.start.append(self.events)
            self.events += len(slot)
        self.start.append(self.events)
        self.tasks = sorted(set(stage.beginning.boots) | stage.born)
        self.trace = self.header() + [event for slot in stage.slots for event in slot]
        self.expectation = self.decisions()
        self.names = self.name_all()

    def number(self, position: Position) -> int:
        """The number of the event at a position."""
        return self.start[position[0]] + position[1] + 1

    def header(self) -> List[str]:
        """The trace before its events."""
        levels, functions = self.stage.levels, self.stage.reading.functions
        symbols = {function.symbol for function in functions.of_probe.values() if function.patch is None} | self.stage.patched
        lines = [f'lptrace {self.stage.version}'] + [f'sym {symbol}' for symbol in sorted(symbols)]
        for patch in levels.in_order():
            height = f'{levels.of_patch[patch]} ' if self.stage.numbered else ''
            lines += [f'patch {height}{symbol}' for symbol in functions.of_patch[patch]]
        idle = self.stage.beginning.idle
        return lines + [f'boot {task} {"idle" if task in idle else "normal"}' for task in self.stage.beginning.boots]

    def comm(self, task: int) -> str:
        """The task's latest name."""
        return self.stage.reading.roster.comm.get(task, '?')

    def kind(self, task: int) -> str:
        """user, kthread or idle."""
        return self.stage.reading.roster.kind(task)

    def decisions(self) -> Expectation:
        """What the kernel decided."""
        expectation = Expectation(' '.join(self.stage.reading.meta['uname'][2:]))
        for task in self.tasks:
            expectation.tasks[task] = Known(self.kind(task), printable(self.comm(task)).replace(' ', '_'))
        expectation.legs = [self.leg(leg) for leg in self.stage.legs]
        for note in self.stage.notes:
            rest = tuple(note.rest.split())
            if note.word == 'shown':
                before = self.number(note.position) - 1
                expectation.decisions.append(Decision('shown', before, note.task, rest, self.start[note.asked]))
            else:
                at = self.number(note.position)
                expectation.decisions.append(Decision(note.word, at, note.task, rest, at))
        expectation.decisions.sort(key=lambda decision: decision.event)
        return expectation

    def leg(self, leg: Opening) -> KernelLeg:
        """A transition as the kernel had it."""
        side = str(leg.target) if self.stage.numbered else 'new' if leg.target else 'old'
        return KernelLeg(self.number(leg.position), leg.word, side,
                         self.number(leg.begins) - 1 if leg.begins else None,
                         self.number(leg.complete) if leg.complete else None,
                         self.number(leg.shown) - 1 if leg.complete and leg.shown else None)

    def stacks(self) -> Dict[int, List[List[Any]]]:
        """The stacks of tasks as /proc showed them, and after which event."""
        stage = self.stage
        found: Dict[int, List[List[Any]]] = {}
        for place, task, stack, state in stage.stacks_shown:
            found.setdefault(task, []).append([self.start[place], stack, state])
        for task, row in stage.beginning.row_of.items():
            if row.get('stack') and (task in stage.beginning.frames or stage.states.get(task) in (0, 1)):
                found.setdefault(task, []).insert(0, [0, row['stack'], row['s']])
        return found

    def name_all(self) -> Dict[str, Any]:
        """The names, as names.py has them."""
        stage, reading = self.stage, self.stage.reading
        meta, levels = reading.meta, self.stage.levels
        stage.log['events'], stage.log['tasks'] = self.events, len(self.tasks)
        patches = levels.in_order()
        says = [decision.line() for decision in self.expectation.decisions if decision.word not in ('shown', 'ran', 'born')]
        return {
            'version': VERSION, 'kernel': self.expectation.kernel,
            'tasks': {str(task): self.who(task) for task in self.tasks},
            'patches': patches, 'functions': {patch: reading.functions.of_patch[patch] for patch in patches},
            'prologue': stage.prologue, 'times': [[self.start[place], seconds] for place, seconds in stage.times],
            'marks': [seconds for _, seconds in stage.times],
            'began_in_transition': bool(levels.prior),
            'stacks': {str(task): rows for task, rows in self.stacks().items()},
            'kernel_legs': [leg.line().split() for leg in self.expectation.legs], 'kernel_says': says,
            'missing': meta['lacks'] + meta['notes'] + meta['refused'], 'missed': meta['missed'],
            'light': 'raw_syscalls/sys_exit' not in meta['events'],
            'calls_known': any(ENTRY_PROBE.fullmatch(probe) for probe in meta['probes']),
            'messages': meta.get('kmsg', []), 'me': reading.roster.present.get(meta['me']), 'log': dict(stage.log)}

    def who(self, task: int) -> Dict[str, Any]:
        """A task's names."""
        roster = self.stage.reading.roster
        pid = roster.pid_of.get(task, 0)
        row = {'pid': pid, 'tgid': roster.tgid.get(task, pid), 'kind': self.kind(task), 'comm': self.comm(task)}
        if self.kind(task) == 'idle':
            row['cpu'] = TOP - task
        return row


def refuse_too_long(trace: List[str], whole: bool) -> None:
    """Refuses a trace that no `lpt` takes."""
    count = sum(line.split(' ', 1)[0] not in ('lptrace', 'sym', 'patch', 'boot') for line in trace)
    if count > MOST_EVENTS:
        raise TooLong(f'{count} events, and a trace has {MOST_EVENTS} at most' + (': convert it without --whole' if whole else ''))
