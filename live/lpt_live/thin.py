"""Thinning: a trace with the same decisions in a hundredth of the events.

Kept are, in their order,

- each walk, stop and control; each fork and each death; each check at `resched`; each call of a function that some patch
  has, and its return;
- of each task's stretches between those, its first `exit` or `idle`, with the `enter` or `wake` that it needs before it, and
  after it the fewest moves into the mode that the stretch ends in.

A stretch of a task ends at a walk, stop or control; at a call, a return or a `resched` of its own that is kept; at its fork;
and where a thread of its process dies.  Left out is all else: calls and returns of functions that no patch has,
further exits, idle points, sleeps and wake-ups of a stretch, and events that every model refuses (E1 to E9).

Why that can't matter:

1. Which version runs and which frame is stale depend on frames of functions that some patch has.  Those are all kept.
2. At a walk or a stop each task's mode is what it was: its stretch has ended there.  So it is of a task at its `resched`.
3. At an exit or idle point a task has no frame (E9), so a check there asks the same at each of a stretch: the same stack,
   the same mode, the same target, and the same answer to "is it its group's only live member": nobody dies in its
   process meanwhile, and who is born there by another thread finds two already.  If the first switches the group, the
   others find it switched; if it doesn't, neither do they.
4. A transition completes at a switch, a death or an opening, and those are kept.

So it holds of a model whose groups are tasks or processes, or which checks at walks and stops alone, and whose verdict
depends on frames of patched functions alone, or is asked for where there is no frame: hybrid, leave-kernel, all-at-once,
immediate and process-group.  It wouldn't hold of one that looks at other frames in a walk or at `resched`, or of groups
beyond processes that switch at an exit.
"""
from typing import Dict, Iterable, List, NamedTuple, Optional, Set, Tuple

from . import progress
from .tasks import ASLEEP, KERNEL, USER, Tasks
from .trace import Event, Trace, parse

MOVES = ('enter', 'exit', 'sleep', 'wake', 'idle')
CHECKS: Dict[str, str] = {'exit': USER, 'idle': KERNEL}         # the mode after each
# How a task comes from one mode to another, in events that are no checks.
WAY: Dict[Tuple[str, str], List[str]] = {(USER, KERNEL): ['enter'], (USER, ASLEEP): ['enter', 'sleep'],
                                         (KERNEL, ASLEEP): ['sleep'], (ASLEEP, KERNEL): ['wake']}
# How it comes to its check.
TO_CHECK: Dict[str, List[str]] = {USER: ['enter'], ASLEEP: ['wake'], KERNEL: []}
BEHIND_CHECK = 2                                # of the places of an event, those of a check are before this one


class Kept(NamedTuple):
    """An event of the thinned trace: at which event of the whole one it stands, its place there, its text."""
    number: int
    place: int
    text: str


class Stretch:
    """A task's moves so far: the mode that it began in, its first check, its last move."""

    def __init__(self, begun: str) -> None:
        self.begun = begun
        self.check: Optional[Event] = None
        self.last = 0


class Thinner:
    """The events so far, thinned: `kept`."""

    def __init__(self, trace: Trace) -> None:
        self.patched = {symbol for functions in trace.patches.values() for symbol in functions}
        self.tasks = Tasks(trace)
        self.members: Dict[int, Set[int]] = {task: {task} for task in trace.boots}      # of each process, dead ones too
        self.stretches: Dict[int, Stretch] = {}
        self.kept: List[Kept] = []

    def close(self, tasks: Iterable[int]) -> None:
        """Ends the stretches of these tasks: writes what matters of them."""
        for task in list(tasks):
            stretch = self.stretches.pop(task, None)
            if stretch is not None:
                self.write(task, stretch)

    def write(self, task: int, stretch: Stretch) -> None:
        """Writes a stretch: its first check at its place, and the way to its last mode at its last move."""
        begun, check = stretch.begun, stretch.check
        if check is not None:
            for place, word in enumerate([*TO_CHECK[begun], check.word]):
                self.kept.append(Kept(check.number, place, f'{word} {task}'))
            begun = CHECKS[check.word]
        for place, word in enumerate(WAY.get((begun, self.tasks.live[task].mode), []), BEHIND_CHECK):
            self.kept.append(Kept(stretch.last, place, f'{word} {task}'))

    def step(self, event: Event) -> None:
        """Takes the next event."""
        if self.tasks.refusal(event):
            return
        if event.task is not None and event.word in MOVES:
            self.move(event.task, event)
        elif self.matters(event):
            self.close(self.touched(event))
            self.kept.append(Kept(event.number, 0, event.text))
        self.tasks.step(event)
        if event.child is not None:
            self.members.setdefault(self.tasks.live[event.child].group, set()).add(event.child)

    def move(self, task: int, event: Event) -> None:
        """A task changes its mode, or is at a check."""
        stretch = self.stretches.setdefault(task, Stretch(self.tasks.live[task].mode))
        stretch.last = event.number
        if event.word in CHECKS and stretch.check is None:
            stretch.check = event

    def matters(self, event: Event) -> bool:
        """Whether an event is kept: all but calls and returns of functions that no patch has."""
        if event.word == 'call':
            return event.words[2] in self.patched
        if event.word == 'ret':
            return self.tasks.live[int(event.words[1])].frames[-1].symbol in self.patched
        return True

    def touched(self, event: Event) -> List[int]:
        """The tasks whose stretches end at an event that is kept."""
        if event.task is None:
            return list(self.stretches)
        if event.word == 'die':
            return sorted(self.members[self.tasks.live[event.task].group])
        return [event.task]


def thin(text: str) -> Tuple[str, List[int]]:
    """The thinned text, and for each of its events the number that it has, or stands at, in the whole one."""
    trace = parse(text)
    thinner = Thinner(trace)
    for event in progress.over(trace.events, 'leaving out what changes no decision'):
        thinner.step(event)
    thinner.close(list(thinner.stretches))
    thinner.kept.sort(key=lambda kept: kept[:2])
    return '\n'.join([*trace.header, *(kept.text for kept in thinner.kept)]) + '\n', [kept.number for kept in thinner.kept]
