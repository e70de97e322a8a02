"""Looks into /proc between two marks among the records, so that it is known which records came before and after."""
import time
from typing import Any, Callable, Dict, Iterator, List, Optional

from . import patches
from .system import System

MARK = 'klprec'         # how marks begin in a recording of version 1
BATCH = 8               # tasks between two marks: with more, a look says less about when it was
Row = Dict[str, Any]


class Looks:
    """Counts the marks, and takes the looks; `mark` writes a line among the records, `keep` takes a row.

    `brief` samples leave out who doesn't wait and shows what he showed before: a transition can be stuck for days, on a
    machine with thousands of tasks.
    """

    def __init__(self, system: System, mark: Callable[[str], None], keep: Callable[[Row], None], stacks: bool,
                 brief: bool = False) -> None:
        self.system, self.mark, self.keep, self.stacks, self.brief = system, mark, keep, stacks, brief
        self.number = 0
        self.shown: Dict[int, str] = {}     # each thread's patch_state at its last look

    def next(self) -> int:
        """The number of the next mark."""
        self.number += 1
        return self.number

    def tick(self) -> None:
        """Marks the time of day: the records' clock counts, and tells none."""
        self.mark(f'{MARK}= {self.next()} {time.time():.3f}')

    def _batches(self) -> Iterator[List[Any]]:
        tasks = list(self.system.tasks())
        for first in range(0, len(tasks), BATCH):
            yield tasks[first:first + BATCH]

    def snapshot(self) -> None:
        """Every task: who it is, where, its patch state, its stack."""
        for batch in self._batches():
            number = self.next()
            self.mark(f'{MARK}> {number}')
            rows = [self._who(*task) for task in batch]
            self.mark(f'{MARK}< {number}')
            self.keep({'snap': number, 'tasks': [row for row in rows if row]})

    def _who(self, process: int, thread: int) -> Optional[Row]:
        stat = self.system.stat(process, thread)
        if not stat:
            return None
        return {'t': thread, 'g': process, 'comm': stat.comm, 's': stat.state, 'kt': int(stat.kernel_thread),
                'cpu': stat.cpu, 'ps': self.system.patch_state(process, thread) or '',
                'stack': self.system.stack(process, thread) if self.stacks else None}

    def sample(self) -> int:
        """The patch state of every task, and the stacks of those that wait; how many those are."""
        moving, waiting = patches.in_motion(patches.loaded(self.system)), 0
        goal = ('1' if moving.enabled else '0') if moving else None
        for batch in self._batches():
            number = self.next()
            self.mark(f'{MARK}> {number}')
            rows = [self._state(process, thread, goal) for process, thread in batch]
            self.mark(f'{MARK}< {number}')
            told = [row for row in rows if not self.brief or 's' in row or self.shown.get(row['t']) != row['ps']]
            if told:
                self.keep({'sample': number, 'goal': goal, 'tasks': told})
            self.shown.update((row['t'], row['ps']) for row in rows)
            waiting += sum('s' in row for row in rows)
        return waiting

    def _state(self, process: int, thread: int, goal: Optional[str]) -> Row:
        state = self.system.patch_state(process, thread) or 'none'
        row: Row = {'t': thread, 'ps': state}
        if state in ('0', '1') and state != goal:
            if self.stacks:
                row['stack'] = self.system.stack(process, thread)
            stat = self.system.stat(process, thread)
            row['s'] = stat.state if stat else '?'
        return row
