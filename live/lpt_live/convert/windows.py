"""One point for what takes time.

A walk and the opening of a transition last, and meanwhile the other CPUs go on.  A trace has each at one point.  So the
records of the time that it took are put before or after its point, task by task, each task's own order kept:

- of a walk, by the walk's check of the task: what came before that check goes before the walk, all else after it;
  the records of a task that it didn't look at go after it, unless the task switched by itself meanwhile;
- of an opening, by the task's first update, which is a check already: before the opening, what came before the update; of
  a task without one, all goes before the opening if it is off the target, and after it if it is on it;
- of a reversal as well, with one more case: a switch before the target is turned is still to the old target, so before.

Without this the samples and switches of recorded transitions differ from any point that one could choose.  What can't be
kept is a cause that a trace doesn't tell, such as a parent that waits for its child's end.
"""
from typing import Counter, Dict, List, Optional, Tuple

from ..errors import Refused
from .record import UNDEFINED, Record

# Of these kinds the opener's own are within an opening; any other record of it is after the opening's end.
WITHIN_OPENING = ('in', 'out', 'check')


class Windows:
    """The records, with each walk and each opening at its point: `sorted_records`.

    `within` says in which point's time a look into /proc lies.
    """

    def __init__(self, records: List[Record], target: int, state: Dict[int, int], turns_late: bool,
                 log: Counter[str]) -> None:
        self.records = records
        self.target = target
        self.state = state
        self.base = 1 - target if target != UNDEFINED else 0
        self.turns_late = turns_late
        self.log = log
        self.within: Dict[int, Record] = {}
        self.moved = 0
        self.sorted_records = self.all()
        log['sorted windows'] = self.moved

    def all(self) -> List[Record]:
        """All records in their new order; those from a walk or an opening on that the recording's end cuts off are left out."""
        out: List[Record] = []
        begin = 0
        while begin < len(self.records):
            record = self.records[begin]
            self.follow(record)
            if record.kind not in ('walk', 'start', 'reverse'):
                out.append(record)
                begin += 1
                continue
            end = self.end_of(begin)
            if end is None:
                self.log[f'{"walks" if record.kind == "walk" else "openings"} cut off by the end'] += 1
                return out
            out += self.one_point(record, self.records[begin:end])
            begin = end
        return out

    def follow(self, record: Record) -> None:
        """Keeps the states as the records outside of windows tell them."""
        if record.kind == 'init':
            self.target, self.base = record.state, 1 - record.state
            self.state = {}
        if record.kind in ('updated', 'check', 'resched'):
            self.state[record.subject] = record.state
        if record.kind == 'copy' and self.target != UNDEFINED:
            self.state[record.about] = record.state

    def end_of(self, begin: int) -> Optional[int]:
        """Where the window that begins here ends; None where the recording ends before."""
        first = self.records[begin]
        if first.kind == 'walk':
            return next((place for place in range(begin, len(self.records))
                         if self.records[place].kind in ('walked', 'complete')
                         and self.records[place].task == first.task), None)
        start = next((place for place in range(begin, len(self.records))
                      if self.records[place].kind == 'start' and self.records[place].task == first.task), None)
        if start is None:
            return None
        return next((place for place in range(start + 1, len(self.records))
                     if self.records[place].task == first.task
                     and self.records[place].kind not in WITHIN_OPENING), len(self.records))

    def one_point(self, first: Record, window: List[Record]) -> List[Record]:
        """The window's records round its point."""
        if first.kind == 'reverse':
            self.target = 1 - self.target
        sides = Sides(self, first, window)
        point = Record('walk' if first.kind == 'walk' else 'open', first.task, first.place, first.cpu,
                       target=self.target, flag=first.kind == 'reverse')
        point.checks = [(record.about, record.result) for record in window
                        if record.kind == 'check' and record.was != self.target]
        before: List[Record] = []
        after: List[Record] = []
        for record in window:
            if record.kind in ('ask', 'told'):
                self.within[id(record)] = point
            if record.kind == 'reverse' or (record.kind in ('walk', 'start', 'check') and record.task == first.task):
                continue
            (before if sides.before(record) else after).append(record)
            if record.kind in ('updated', 'resched'):
                self.state[record.task] = record.state
        self.check_order(before, after)
        return [*before, point, *after]

    def check_order(self, before: List[Record], after: List[Record]) -> None:
        """Each task's own order must stay, and a child's birth come first.  Refused where the sorting can't keep it."""
        places = [record.place for record in before + after]
        if places != sorted(places) or (before and after):
            self.moved += 1
        last: Dict[int, int] = {}
        for record in before + after:
            if last.get(record.task, -1) > record.place:
                raise Refused(f'{record}: no point of the walk or opening round it keeps the order of its task')
            last[record.task] = record.place
        acting = {record.task for record in before}
        for record in after:
            if record.kind == 'copy' and record.about in acting:
                raise Refused(f'{record}: no point of the walk or opening round it keeps the child\'s acts after its birth')


class Sides:
    """On which side of a window's point each of its records goes."""

    def __init__(self, windows: Windows, first: Record, window: List[Record]) -> None:
        self.windows = windows
        self.first = first
        self.checked: Dict[int, int] = {}       # a task to the place of the walk's check of it
        self.switched: Dict[int, int] = {}      # a task to the place of its own first switch
        self.early: Dict[int, int] = {}         # of a reversal: before the target was turned
        turn = 0
        if first.kind == 'reverse' and windows.turns_late:
            turn = next((record.place for record in window if record.kind == 'start' and record.task == first.task), 0)
        for record in window:
            self.take(record, turn)

    def take(self, record: Record, turn: int) -> None:
        """Takes what a record of the window says about its side."""
        windows = self.windows
        if record.kind == 'check':
            if record.was == windows.target:    # it switched while the walk waited for the task's lock
                windows.log['checks of tasks that were over already'] += 1
                return
            self.checked.setdefault(record.about, record.place)
            windows.state[record.about] = record.state
        if self.switches(record):
            if record.place < turn:
                self.early[record.task] = record.place
                windows.log['moves while a reversal clears the flags'] += 1
            else:
                self.switched.setdefault(record.task, record.place)
        if record.kind == 'copy':
            windows.state[record.about] = record.state

    def switches(self, record: Record) -> bool:
        """Whether a task switches itself, or in an opening would: there a check of itself is one whatever its verdict."""
        if record.kind == 'update':
            return record.flag
        return record.kind == 'resched' and (record.result == 0 or self.first.kind != 'walk')

    def before(self, record: Record) -> bool:
        """Whether a record goes before the point."""
        task = record.task
        if self.first.kind == 'walk':
            if task in self.checked:
                return record.place < self.checked[task]
            return task in self.switched and record.place <= self.switched[task]
        if task == self.first.task:
            return True
        if task in self.switched:
            return record.place < self.switched[task]
        if task in self.early:
            return True
        return self.windows.state.get(task, self.windows.base) != self.windows.target


def sort(records: List[Record], target: int, state: Dict[int, int], turns_late: bool,
         log: Counter[str]) -> Tuple[List[Record], Dict[int, Record]]:
    """The records with one point for each walk and opening, and the looks into /proc that lie within one."""
    windows = Windows(records, target, dict(state), turns_late, log)
    return windows.sorted_records, windows.within
