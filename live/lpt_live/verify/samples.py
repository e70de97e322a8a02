"""Samples of /proc/PID/patch_state: each must have been so at some moment between its two marks.

What is shown is the state, not the pending flag: 1 patched, 0 unpatched, and -1 outside of transitions.  While a
transition is prepared it shows the side that tasks come from already; and after the last switch it shows the target, until the
kernel's own completion is over.
"""
from typing import Collection, Dict, List, Set, Tuple

from .case import Case
from .differences import SAMPLE, Difference
from .engine import Engine

History = Dict[int, List[Tuple[int, str]]]      # a task to the events from which on a value was shown
UNBORN, DEAD = 'not born', 'dead'


class Shown:
    """What patch_state shows by the engine's switches and the kernel's own openings and completions."""

    def __init__(self, case: Case, tasks: Set[int]) -> None:
        self.case = case
        self.tasks = tasks
        self.engine = Engine(case)
        self.moving = False
        self.high = self.target = 0
        self.history: History = {task: [(0, '-1' if task in case.trace.boots else UNBORN)] for task in tasks}
        self.opened = {leg.opened: case.level(leg.side) for leg in case.decisions.legs}
        self.begun = {leg.begins: case.level(leg.side) for leg in case.decisions.legs if leg.begins is not None}
        self.closed = {leg.shown for leg in case.decisions.legs if leg.shown is not None}
        if 0 in self.begun:
            self.begin(0)
            self.show_all(0, ())
        for event, _ in self.engine.events():
            self.step(event.number)

    def step(self, number: int) -> None:
        """Behind an event: its switches, then the end of a completion, then the preparation of the next transition.  All
        of them may lie between two events, and a sample between any two of them."""
        reply, event = self.case.report.reply(number), self.case.event(number)
        touched = {*reply.groups, *([event.child] if event.child else []),
                   *([event.task] if event.word == 'die' and event.task else [])}
        if number in self.opened:
            self.moving, self.target = True, self.opened[number]
            touched = self.tasks
        for task in touched & self.tasks:
            self.show(task, number, task in reply.groups)
        if number in self.closed:
            self.moving = False
            self.show_all(number, reply.groups)
        if number in self.begun:
            self.begin(number)
            self.show_all(number, reply.groups)

    def show_all(self, number: int, switched: Collection[int]) -> None:
        """What is shown of all tasks."""
        for task in self.tasks:
            self.show(task, number, task in switched)

    def begin(self, number: int) -> None:
        """A transition is prepared."""
        self.moving, self.high = True, max(self.target, self.begun[number])

    def show(self, task: int, number: int, switched: bool) -> None:
        """What is shown of a task from this event on."""
        level = self.target if switched else self.engine.levels.get(task)
        if level is None:
            value = DEAD if task in self.engine.tasks.used else UNBORN
        else:
            value = '-1' if not self.moving else '1' if level == self.high else '0'
        if self.history[task][-1][1] != value:
            self.history[task].append((number, value))

    def between(self, task: int, after: int, before: int) -> Set[str]:
        """All that was shown of a task at some moment between two events.  A preparation or a completion's end lies between
        two events, and so may the sample: it may have come before."""
        rows = self.history[task]
        if after in self.closed or after in self.begun:
            after -= 1
        return {value for place, (number, value) in enumerate(rows)
                if number <= before and (place + 1 == len(rows) or rows[place + 1][0] > after)}


def samples(case: Case) -> List[Difference]:
    """The samples that can't have been.  One that may be of a dead task is none: the dead are shown until they are reaped."""
    wanted = [decision for decision in case.decisions.decisions if decision.word == 'shown']
    if not wanted:
        return []
    shown = Shown(case, {decision.task for decision in wanted})
    found = []
    for decision in wanted:
        could = shown.between(decision.task, decision.after, decision.event)
        if DEAD in could or decision.rest[0] in could or (decision.rest[0] == 'none' and UNBORN in could):
            continue
        at = decision.event
        found.append(Difference(
            SAMPLE, at, case.trace.line_of(at), decision.task,
            f'{case.who(decision.task)}: patch_state showed {decision.rest[0]} between {case.place(decision.after)} and '
            f'{case.place(at)}; by the engine it was {" or ".join(sorted(could))}'))
    return found
