"""A timeline for the terminal: the tasks that weren't over after the first walk, a column for each moment."""
import time
from typing import Dict, List, Optional, Tuple

from .. import progress
from ..tasks import ASLEEP, KERNEL, USER, Task, Tasks
from ..trace import OWN_CHECK
from .case import Case, Transition
from .clock import Clock
from .kernel import Kernel
from .naming import Naming, RecordedNaming

WIDTH = 100
LEFT = 23
MOST = 40
RANK = ' .sS=#'     # where several modes fall into one column, the one further right in this list is shown
SIGNS = {USER: '..', KERNEL: '=#', ASLEEP: 'sS'}
LEGEND = ('. in user space   = in the kernel   s off its CPU   # S in a patched function   '
          'x refused{}   O over   E opening   w walk   C complete')


def chosen(case: Case, transition: Transition) -> List[int]:
    """The tasks that weren't over after the transition's first scan, and those that still wait."""
    scans = case.scans(transition.opened, transition.end)
    after = scans[0] if scans else transition.opened
    moved = {group for event, groups in case.report.switched().items() if after < event <= transition.last for group in groups}
    waiting = set() if transition.leg.complete else {one.group for one in transition.leg.certificates} - moved
    group_of = case.groups()
    return [task for some in (moved, waiting) for task in group_of if group_of[task] in some]


class Timeline:
    """The rows of the tasks, filled event by event.  Of a plain trace events stand for time."""

    def __init__(self, case: Case, naming: Naming, kernel: Optional[Kernel], transition: Transition) -> None:
        self.case, self.naming, self.kernel, self.transition = case, naming, kernel, transition
        self.clock: Optional[Clock] = naming.clock if isinstance(naming, RecordedNaming) else None
        self.tasks = chosen(case, transition)
        self.patched = {symbol for functions in case.trace.patches.values() for symbol in functions}
        self.begin = self.end = 0.0
        begin, end = self.when(max(case.prologue + 1, transition.opened)), self.when(transition.last)
        pad = max(0.3 if self.clock else 1.0, (end - begin) / 12)
        self.begin, self.end = begin - pad, end + pad
        self.rows: Dict[int, List[str]] = {task: [' '] * WIDTH for task in self.tasks}
        self.filled: Dict[int, int] = {task: 0 for task in self.tasks}
        self.sign: Dict[int, str] = {}

    def when(self, event: int) -> float:
        """The time of an event; before the recording, the timeline's begin."""
        if self.clock is None:
            return float(event)
        seconds = self.clock.when(event)
        return self.begin if seconds is None else seconds

    def column(self, event: int) -> int:
        """The column of an event."""
        return int((self.when(event) - self.begin) / (self.end - self.begin) * WIDTH)

    def lines(self) -> List[str]:
        """The timeline's lines."""
        if not self.tasks:
            return ['TIMELINE: no task was left after the first walk.']
        self.follow()
        self.put_refusals()
        self.put_switches()
        wide = (self.end - self.begin) / WIDTH
        unit = 's' if self.clock else 'events'
        left, right = self.edges()
        lines = [f'TIMELINE of the tasks that weren\'t over after the first walk; a column is {wide:.2f} {unit}',
                 ' ' * LEFT + left + ' ' * (WIDTH - len(left) - len(right)) + right, ' ' * LEFT + ''.join(self.head()).rstrip()]
        for task in self.tasks[:MOST]:
            lines.append(f'{self.naming.columns(task)} {"".join(self.rows[task])}'.rstrip())
        more = [f'and {len(self.tasks) - MOST} more'] if len(self.tasks) > MOST else []
        return lines + more + [LEGEND.format('' if self.case.trace.knows(OWN_CHECK) else ' at a walk')]

    def edges(self) -> Tuple[str, str]:
        """What stands above the first column and the last."""
        if self.clock is None:
            return f'event {max(1, round(self.begin))}', f'event {min(len(self.case.events), round(self.end))}'
        first, last = (time.strftime('%H:%M:%S', time.localtime(seconds)) for seconds in (self.begin, self.end))
        return first, last

    def head(self) -> List[str]:
        """The row of the opening, the walks and the completion."""
        head = [' '] * WIDTH
        for number in self.case.scans(self.transition.opened + 1, self.transition.last):
            if 0 <= self.column(number) < WIDTH:
                head[self.column(number)] = 'w'
        head[max(0, min(WIDTH - 1, self.column(self.transition.opened)))] = 'E'
        complete = self.transition.leg.complete
        if complete and self.column(complete) < WIDTH:
            head[self.column(complete)] = 'C'
        return head

    def fill(self, task: int, upto: int) -> None:
        """Fills a row up to a column with the task's present sign, where nothing stands yet."""
        row = self.rows[task]
        for column in range(self.filled[task], min(upto, WIDTH)):
            if row[column] == ' ':
                row[column] = self.sign.get(task, ' ')
        self.filled[task] = max(self.filled[task], min(upto, WIDTH))

    def sign_of(self, task: Optional[Task], settled: bool) -> str:
        """The sign of a mode; of the prologue's reconstructions a frame is told of sleepers alone."""
        if task is None:
            return ' '
        inside = any(frame.symbol in self.patched for frame in task.frames)
        return SIGNS[task.mode][inside and (settled or task.mode == ASLEEP)]

    def follow(self) -> None:
        """Fills the rows from the events."""
        tasks, column = Tasks(self.case.trace), 0
        self.sign = {number: self.sign_of(task, False) for number, task in tasks.live.items()}
        for event in progress.over(self.case.events, 'filling the timeline'):
            column = self.column(event.number)
            if column >= WIDTH:
                break
            recorded = event.number > self.case.prologue
            about = [task for task in (event.task, event.child) if task is not None and task in self.rows]
            for task in about if recorded else []:
                self.fill(task, column)
            if event.number not in self.case.refused:
                tasks.step(event)
            for task in about:
                self.show(task, self.sign_of(tasks.live.get(task), recorded), column, recorded)
        for task in self.tasks:
            self.fill(task, min(WIDTH, column + 1))

    def show(self, task: int, sign: str, column: int, recorded: bool) -> None:
        """A task's new sign, which wins over a lesser one in the same column."""
        self.sign[task] = sign
        if recorded and column >= 0:
            row = self.rows[task]
            if RANK.index(sign) > RANK.index(row[column] if row[column] in RANK else ' '):
                row[column] = sign

    def put_refusals(self) -> None:
        """A cross where a check refused a task: by the kernel's word, of a plain trace by the engine's rules."""
        if self.kernel:
            refused = [(told.event, told.task) for told in self.kernel.decisions if told.word == 'stays']
        else:
            refused = [(mark.event, mark.task) for mark in self.case.story().marks if mark.kind != 'switch']
        for event, task in refused:
            if task in self.rows and self.transition.opened <= event <= self.transition.last:
                self.rows[task][max(0, min(WIDTH - 1, self.column(event)))] = 'x'

    def put_switches(self) -> None:
        """A ring where the engine switched a task."""
        for event, tasks in self.case.report.switched().items():
            for task in tasks:
                if task in self.rows and self.transition.opened < event <= self.transition.last and self.column(event) < WIDTH:
                    self.rows[task][self.column(event)] = 'O'
