"""What a recording says about its own beginning: who is there, in which mode, with which frames, on which side.

The recorder looks at each task once in /proc at the start; between its first record and that look a task may have moved on.
So of each task what comes first counts, a record of it or the look.
"""
from typing import Any, Container, Counter, Dict, List, Optional, Set

from .functions import Function
from .reading import Reading
from .record import UNDEFINED, Record
from .roster import LAST_NUMBER, TOP

# Records that say in which mode their task is, or was just before.
TELLING_MODE = ('in', 'out', 'enter', 'exit', 'call', 'copy', 'update', 'dying', 'open', 'walk', 'release', 'resched')
# Records by which a task of the start has called, or has left the kernel, before it was looked at.
TELLING_FRAMES = ('in', 'out', 'enter', 'exit', 'call', 'update')
LEFT_KERNEL = ('enter', 'exit', 'update')


def states_at_start(reading: Reading, records: List[Record], born: Container[int]) -> Dict[int, int]:
    """Each task's patch_state as the recording began, where a transition is under way: by /proc, or by the first record
    that tells it if that came before the look."""
    if not reading.prior:
        return {}
    first = {}
    for record in records:
        if record.kind in ('check', 'update', 'resched') and record.subject not in first:
            first[record.subject] = (record.place, record.state if record.kind == 'update' else record.was)
    found = {}
    there = reading.roster.there_at_the_start(born)
    for pid, row in reading.snapshot.items():
        task, looked = there.get(pid), reading.looks_from(row)[1]
        if task is not None and row['ps'] in ('0', '1') and (task not in first or first[task][0] > looked):
            found[task] = int(row['ps'])
    for task, (_, state) in first.items():
        found.setdefault(task, state)
    return found


def settle_births(records: List[Record], start: Dict[int, int], target: int) -> None:
    """Says with which state the children of the transition from before the recording were born: while the records were
    read, the states of their parents weren't known yet."""
    states = dict(start)
    for record in records:
        if record.kind in ('init', 'reverse'):
            return
        if record.kind in ('check', 'updated', 'resched'):
            states[record.subject] = record.state
        elif record.kind == 'copy' and record.state != UNDEFINED:
            record.state = states[record.about] = states.get(record.task, target)


class Beginning:
    """`boots`: the boot tasks in the order of the trace, idle tasks last; `idle`; `zombies` from before, which have no
    events; `first`: each task's first record that tells its mode; `frames`: each boot task's, the oldest first."""

    def __init__(self, reading: Reading, records: List[Record], born: Container[int], log: Counter[str]) -> None:
        self.reading = reading
        self.log = log
        self.first: Dict[int, Record] = {}
        self.seen: Set[int] = set()
        self.of_task: Dict[int, List[Record]] = {}
        for record in records:
            self.take(record)
        there = reading.roster.there_at_the_start(born)
        self.row_of = {there[pid]: row for pid, row in reading.snapshot.items() if pid in there}
        boots = {task for task in self.seen if task not in born} | {
            task for task, row in self.row_of.items() if row['s'] not in 'ZX'}
        self.zombies = {task for task in boots & self.seen if task in self.first and self.first[task].kind == 'release'}
        boots -= self.zombies
        self.idle = {task for task in boots if task > LAST_NUMBER}
        self.boots = sorted(boots - self.idle) + sorted(self.idle, reverse=True)
        self.busy_cpus = {TOP - record.cpu for record in records}
        self.frames: Dict[int, List[Function]] = {}
        for task in self.boots:
            frames = self.frames_of(task, self.row_of.get(task))
            if frames:
                self.frames[task] = frames

    def take(self, record: Record) -> None:
        """Takes what a record says about who is there."""
        self.seen.add(record.task)
        if record.kind == 'walk':
            self.seen.update(task for task, _ in record.checks)
        if record.kind in TELLING_MODE:
            self.first.setdefault(record.task, record)
        if record.kind in TELLING_FRAMES:
            self.of_task.setdefault(record.task, []).append(record)

    def frames_of(self, task: int, row: Optional[Dict[str, Any]]) -> List[Function]:
        """The patched functions that a task was in before its first record: from its stack in /proc, less the calls that
        were recorded before the look."""
        if not row or not row.get('stack'):
            return []
        looked, done = self.reading.looks_from(row)
        early = [record for record in self.of_task.get(task, []) if record.place < done]
        shown = self.reading.functions.frames(row['stack'])
        if shown and any(looked <= record.place for record in early):
            self.log['snapshots of moving tasks'] += 1
            return []
        if any(record.kind in LEFT_KERNEL for record in early):
            return []
        calls = [record.text for record in early if record.kind == 'call']
        if calls and [function.symbol for function in shown[len(shown) - len(calls):]] != calls:
            self.log['snapshots that don\'t fit the calls'] += 1
            return []
        return shown[:len(shown) - len(calls)]
