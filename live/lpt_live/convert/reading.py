"""From the lines of tracefs to records of one task each, with the kernel's patch_state of each task along the way."""
import re
from typing import Any, Callable, Counter, Dict, List, Optional, Tuple

from .. import progress
from ..recording import Recording
from .functions import Functions
from .lines import Line, parse
from .record import UNDEFINED, Record
from .roster import Roster

# From Linux 6.4 on a task checks itself at cond_resched, and klp_reverse_transition turns the target after it has cleared the
# flags; before that it turned it first.
WITH_OWN_CHECK = (6, 4)


class States:
    """The kernel's patch_state of each task: so that the state with which a child is born, which no probe tells, is known."""

    def __init__(self, target: int) -> None:
        self.target = target
        self.base = target          # who isn't heard of in a transition from before the recording is on its target
        self.of_task: Dict[int, int] = {}

    def begin(self, target: int) -> None:
        """A transition is prepared: the kernel puts each task on the other side."""
        self.target, self.base, self.of_task = target, 1 - target, {}

    def at_birth(self, parent: int) -> int:
        """The state that a child gets from its parent."""
        return self.of_task.get(parent, self.base) if self.target != UNDEFINED else UNDEFINED


class OpenUpdate:
    """klp_update_patch_state between its beginning, which a probe tells, and its end, which none does."""

    def __init__(self, task: int, pending: bool, record: Record) -> None:
        self.task = task
        self.pending = pending
        self.state = record.state
        self.record: Optional[Record] = record


def has_own_check(release: str) -> bool:
    """Whether tasks of a kernel check themselves at cond_resched."""
    found = re.match(r'(\d+)\.(\d+)', release)
    return found is not None and (int(found[1]), int(found[2])) >= WITH_OWN_CHECK


class Reading:
    """What is known of a recording; `read` fills `records`."""

    def __init__(self, recording: Recording, log: Counter[str]) -> None:
        self.meta = recording.meta
        self.log = log
        self.roster = Roster()
        self.functions = Functions(recording.meta, recording.records, log)
        self.snapshot: Dict[int, Dict[str, Any]] = {}           # pid to what /proc said of it at the start
        self.samples: Dict[int, List[Dict[str, Any]]] = {}      # a look's number to what /proc said of those who wait
        self.take_looks(recording.proc)
        self.marks: Dict[int, List[Optional[int]]] = {}         # a look's number to the places of its beginning and end
        self.has_own_check = has_own_check(self.meta['uname'][2])
        self.prior = prior(self.meta)
        self.states = States(self.prior[1] if self.prior else UNDEFINED)
        self.records: List[Record] = []
        self.updates: Dict[int, OpenUpdate] = {}                # by the task that is in it
        self.checks: Dict[int, Tuple[int, int]] = {}            # a checker to the task that it looks at, and its state
        self.controls: Dict[int, str] = {}                      # a writer to what it writes
        self.walkers: Dict[int, bool] = {}                      # who walks; whether its walk completes the transition

    def take_looks(self, proc: List[Dict[str, Any]]) -> None:
        """Takes what the recorder saw in /proc."""
        for look in proc:
            if 'snap' in look:
                for row in look['tasks']:
                    self.snapshot[row['t']] = dict(row, mark=look['snap'])
            else:
                self.samples[look['sample']] = look['tasks']

    def add(self, kind: str, task: int, line: Line, **members: Any) -> Record:
        """One more record, at the place of this line."""
        record = Record(kind, task, line.place, line.cpu, **members)
        self.records.append(record)
        return record

    def forget(self, record: Record) -> None:
        """Takes a record back, one of the latest."""
        for place in range(len(self.records) - 1, -1, -1):
            if self.records[place] is record:
                del self.records[place]
                return

    def looks_from(self, row: Dict[str, Any]) -> Tuple[int, int]:
        """Between which places a row of the snapshot was read."""
        begin, end = self.marks.get(row['mark'], (None, None))
        last = self.records[-1].place if self.records else 0
        return begin or 0, last if end is None else end


Handler = Callable[[Reading, int, Line], None]


def prior(meta: Dict[str, Any]) -> Optional[Tuple[str, int]]:
    """The patch in transition as the recording began, and its target."""
    for patch, shown in meta['before'].items():
        if shown['transition'] == '1':
            return patch, int(shown['enabled'])
    return None


def read(recording: Recording, handlers: Dict[str, Handler], close_update: Handler, log: Counter[str]) -> Reading:
    """All records of a recording, each by the handler of its name."""
    reading = Reading(recording, log)
    keep_open = ('check', 'checked')
    for line in progress.over(parse(recording.records, log), 'reading records'):
        task = reading.roster.number(line.pid, line.cpu)
        # No probe tells the end of an update (a return probe there could make stacks unreliable): it is over by the task's
        # next record at the latest.
        if task in reading.updates and line.name not in keep_open:
            close_update(reading, task, line)
        name = re.sub(r'\d.*', '', line.name) if line.name[:1] in 'fm' and line.name[1:2].isdigit() else line.name
        handler = handlers.get(name)
        if handler is None:
            log[f'unread events {line.name}'] += 1
        else:
            handler(reading, task, line)
    reading.roster.take_snapshot(reading.snapshot)
    return reading
