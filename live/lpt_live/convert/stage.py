"""The trace in the making: which events stand at which record, and what the tasks are doing by them."""
from typing import Callable, Counter, Dict, List, NamedTuple, Optional, Set, Tuple

from ..tasks import ASLEEP, KERNEL, USER
from .beginning import Beginning
from .levels import Levels
from .reading import Reading
from .record import Record

# A position in the trace before its events are numbered: the record at which an event stands, and its place there.  Events
# may be put at an earlier record, where it turns out later that a task had left the kernel there.
Position = Tuple[int, int]


class Frame(NamedTuple):
    """A call: its symbol, and where its return address lies on the stack, if a probe told it."""
    symbol: str
    sp: Optional[int]


class Note:
    """A line of the expectation in the making; `asked` is the record from which on a `shown` was so."""
    __slots__ = ('position', 'word', 'task', 'rest', 'asked')

    def __init__(self, position: Position, word: str, task: int, rest: str) -> None:
        self.position = position
        self.word = word
        self.task = task
        self.rest = rest
        self.asked = 0


class Opening:
    """A leg in the making."""

    def __init__(self, position: Position, word: str, target: int, begins: Optional[Position]) -> None:
        self.position = position
        self.word = word
        self.target = target
        self.begins = begins
        self.complete: Optional[Position] = None
        self.shown: Optional[Position] = None


class Stage:
    """The events so far, and by them each task's mode, frames and side.

    `leaving` is the record at which a task began its way out of the kernel, if it may be in user space since: its `exit` is
    written there, once a later record shows that it was.  `edge` is whether a task that is off its CPU was on that way;
    None of one that never ran.
    """

    def __init__(self, reading: Reading, levels: Levels, beginning: Beginning, records: List[Record],
                 within: Dict[int, Record], log: Counter[str]) -> None:
        self.reading, self.levels, self.beginning, self.log = reading, levels, beginning, log
        self.slots: List[List[str]] = [[] for _ in range(len(records) + 1)]
        self.within = within
        self.place_of = {id(record): place for place, record in enumerate(records, 1) if record.kind in ('walk', 'open')}
        self.notes: List[Note] = []
        self.patched = {symbol for patch in levels.of_patch for symbol in reading.functions.of_patch[patch]}
        self.times: List[Tuple[int, float]] = []
        self.stacks_shown: List[Tuple[int, int, List[str], str]] = []
        self.legs: List[Opening] = []
        self.modes: Dict[int, str] = {}
        self.leaving: Dict[int, Optional[int]] = {}
        self.frames: Dict[int, List[Frame]] = {}
        self.edge: Dict[int, Optional[bool]] = {}
        self.states: Dict[int, int] = {}            # in a transition: each task's patch_state by the events
        self.live: Set[int] = set(beginning.boots)
        self.dead: Set[int] = set()
        self.born: Set[int] = set()
        self.level = self.goal = 0
        self.target: Optional[int] = None
        self.asked: Dict[int, int] = {}
        self.prepared: Optional[Position] = None
        self.last_walk: Optional[Position] = None
        self.last_call: Dict[int, Tuple[str, Note]] = {}
        self.coming_stacks: Dict[int, List[Tuple[int, List[str]]]] = {}
        # Without the scheduler's switches modes are told by the verdicts of walks alone.
        self.switches = 'sched/sched_switch' in reading.meta['events']
        self.prologue = 0

    @property
    def version(self) -> int:
        """The version of the trace's text: 3 has the word for a check at cond_resched, 2 has several patches."""
        return 3 if self.reading.has_own_check else 2 if self.levels.stacked else 1

    @property
    def numbered(self) -> bool:
        """Whether the text numbers its patches, so that levels and versions are numbers."""
        return self.version > 1

    def emit(self, place: int, text: str) -> Position:
        """Writes an event at a record."""
        self.slots[place].append(text)
        return place, len(self.slots[place]) - 1

    def here(self, place: int) -> Position:
        """The position after the events that a record has so far."""
        return place, len(self.slots[place])

    def note(self, position: Position, word: str, task: int, rest: str = '') -> Note:
        """Notes what the kernel decided."""
        self.notes.append(Note(position, word, task, rest))
        return self.notes[-1]

    def moving(self) -> Set[str]:
        """The functions of the patch that the present transition, or the last one, puts on or takes off."""
        return {symbol for patch in self.levels.at(max(self.level, self.goal))
                for symbol in self.reading.functions.of_patch[patch]}

    def enter_kernel(self, task: int, place: int) -> None:
        """The task is in the kernel by this record."""
        if self.modes[task] == USER:
            self.emit(place, f'enter {task}')
            self.modes[task] = KERNEL

    def leave_kernel(self, task: int, place: int) -> None:
        """The task has been in user space before this record: since it began its way out, or since just now."""
        if self.modes[task] == KERNEL:
            left = self.leaving[task]
            if left is None:
                self.log['exits without a record'] += 1
                left = place
            if self.frames[task]:
                self.drop_frames(task, place)
                left = place
            self.emit(left, f'exit {task}')
            self.modes[task] = USER
        self.leaving[task] = None

    def wake(self, task: int, place: int) -> None:
        """The task is on a CPU by this record."""
        if self.modes.get(task) == ASLEEP:
            self.emit(place, f'wake {task}')
            self.modes[task] = KERNEL

    def call(self, task: int, place: int, symbol: str, sp: Optional[int] = None) -> Position:
        """The task calls a function."""
        self.frames[task].append(Frame(symbol, sp))
        return self.emit(place, f'call {task} {symbol}')

    def return_to(self, task: int, place: int, height: int) -> int:
        """The task's calls above this height have returned; how many those are."""
        frames = self.frames[task]
        gone = len(frames) - height
        for _ in range(gone):
            self.emit(place, f'ret {task}')
            frames.pop()
        return gone

    def drop_frames(self, task: int, place: int) -> None:
        """All of the task's calls have returned by this record at the latest: no probe tells a return."""
        if self.frames[task]:
            self.log['returns told by what came after'] += self.return_to(task, place, 0)

    def die(self, task: int, place: int) -> None:
        """The task ends."""
        self.drop_frames(task, place)
        self.emit(place, f'die {task}')
        self.dead.add(task)
        self.live.discard(task)

    def lowest_moving(self, task: int) -> Optional[int]:
        """The height of the task's lowest frame of the patch that moves."""
        moving = self.moving()
        return next((height for height, frame in enumerate(self.frames.get(task, ())) if frame.symbol in moving), None)


Rule = Callable[[Stage, int, Record], None]
