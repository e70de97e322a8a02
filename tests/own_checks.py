"""What a trace comes to, by a plain definition: the check that a task makes of itself at cond_resched among the others.

It is written from the facts of Linux 6.12 and not from the engine. At each cond_resched() of a task with the pending flag the
kernel tries to switch this task, user tasks and kernel threads alike, by its own stack as it stands there. A task runs while it
looks at itself, so it is never busy to itself, and the stack alone decides. With a function of the moving patch on it, at any
depth, the task stays; else it switches. The check is of a group where the task is its only live member, as at an exit.
`leave-kernel` and `all-at-once` have no such check, and under `immediate` each check admits.

The rest is docs/formats.md and docs/definitions.md in as few words: each group that waits switches at its first check that
admits each live member.
"""

import dataclasses
from typing import Dict, List, NamedTuple, Optional, Set, Tuple

USER, KERNEL, ASLEEP = "user", "kernel", "asleep"
CONTROLS = ("enable", "disable", "reverse")
SCANS = ("walk", "stop")

# At which events each model looks at tasks.
LOOKS = {
    "hybrid": ("exit", "idle", "resched", "walk"),
    "leave-kernel": ("exit", "idle"),
    "all-at-once": ("stop",),
    "immediate": ("exit", "idle", "resched", "walk", "stop"),
    "process-group": ("exit", "idle", "resched", "walk"),
}
MODELS = tuple(LOOKS)


class Trace(NamedTuple):
    """The functions of each patch, the lowest first; the class of each boot task; the words of each event."""

    symbols: List[str]
    patches: List[List[str]]
    boots: Dict[int, str]
    events: List[List[str]]

    def text(self) -> str:
        """The trace as an `lptrace 3`."""
        lines = ["lptrace 3", *(f"sym {name}" for name in self.symbols)]
        for number, names in enumerate(self.patches, 1):
            lines += [f"patch {number} {name}" for name in names]
        lines += [f"boot {task} {kind}" for task, kind in self.boots.items()]
        return "\n".join(lines + [" ".join(event) for event in self.events]) + "\n"

    def version(self, name: str, level: int) -> int:
        """The version of a function at a level: the highest patch up to it that has the function, or 0."""
        return max((k for k in range(1, level + 1) if name in self.patches[k - 1]), default=0)


class Frame(NamedTuple):
    """A call that hasn't returned: its function, the level that its task was on, and the event that it was."""

    name: str
    level: int
    serial: int


@dataclasses.dataclass
class Task:
    """A live task; `stack` has the oldest frame first."""

    kind: str
    mode: str
    level: int
    group: int
    stack: List[Frame]


class Blame(NamedTuple):
    """Why a task keeps its group back: `frame` with the frame's serial, or `busy` with 0."""

    word: str
    serial: int


# The live tasks of a group at a check that looked at it, each with its blame or None.
Look = Dict[int, Optional[Blame]]


class Definition:
    """Who is looked at, and what keeps a task back. A wrong definition overrides one of the two."""

    def alone(self, tasks: Dict[int, Task], number: int) -> bool:
        """Whether a task is its group's only live member."""
        return sum(task.group == tasks[number].group for task in tasks.values()) == 1

    def looked_at(self, model: str, event: List[str], tasks: Dict[int, Task]) -> Set[int]:
        """The groups of which an accepted event is a check."""
        word = event[0]
        if word not in LOOKS[model]:
            return set()
        if word in SCANS:
            return {task.group for task in tasks.values()}
        number = int(event[1])
        return {tasks[number].group} if self.alone(tasks, number) else set()

    def blame(self, model: str, word: str, task: Task, stale: List[int]) -> Optional[Blame]:
        """What keeps a task back at a check; `stale` has the serials of its frames of another version than the target's."""
        if model == "immediate":
            return None
        if stale:
            return Blame("frame", stale[0])
        if word == "walk" and (task.mode == KERNEL or task.mode == USER and model != "process-group"):
            return Blame("busy", 0)
        return None


@dataclasses.dataclass
class Leg:
    """A transition: the event that opened it, its target, its last event, where it was complete, who waited just before that."""

    opened: int
    target: int
    last: int
    complete: Optional[int] = None
    least: Optional[int] = None
    waiting: List[int] = dataclasses.field(default_factory=list)


class Outcome:
    """A trace under a model: `replies`, `legs`, `stays`, and by event what certificates speak of."""

    def __init__(self, trace: Trace, model: str, definition: Definition) -> None:
        self.trace, self.model, self.definition = trace, model, definition
        self.tasks: Dict[int, Task] = {}
        self.used: Set[int] = set()
        self.target = self.before = 0
        self.legs: List[Leg] = []
        self.replies: List[str] = []
        self.stays: List[Set[bool]] = []            # of each stay the sides that its calls ran
        self.open_stays: Dict[Tuple[int, int], int] = {}
        self.looks: List[Dict[int, Look]] = [{}]    # by event: of each group that waited and was looked at
        self.serials: List[Dict[int, List[int]]] = [{}]
        self.births: Dict[int, Tuple[int, int, int]] = {}    # by event: the child's group, the parent, the parent's group
        for task, kind in trace.boots.items():
            self.bear(task, Task(kind, USER if kind == "normal" else KERNEL, 0, self.first_group(task), []))
        for number, event in enumerate(trace.events, 1):
            self.take(number, event)
        self.end()

    def first_group(self, task: int) -> int:
        return 0 if self.model == "all-at-once" else task

    def bear(self, number: int, task: Task) -> None:
        self.tasks[number] = task
        self.used.add(number)

    def off(self) -> Set[int]:
        """The groups with a live member off the target."""
        return {task.group for task in self.tasks.values() if task.level != self.target}

    # -- one event
    def take(self, number: int, event: List[str]) -> None:
        """The next event: its refusal, else its own effect, and then its checks."""
        why = self.refusal(event)
        reply, waited = f"refused {why}" if why else "done", self.off()
        self.looks.append({})
        if not why:
            if event[0] in CONTROLS:
                self.turn(number, event[0])
            elif event[0] not in SCANS:
                reply = self.act(number, event) or reply
            over = self.switch(number, event)
            if over:
                reply = "over " + " ".join(map(str, sorted(over)))
            if not self.off() and (waited or event[0] in CONTROLS):
                self.legs[-1].complete, self.legs[-1].least = number, min(waited, default=None)
                reply += " complete"
        self.replies.append(f"{number} {reply}")
        self.serials.append({task: [frame.serial for frame in it.stack] for task, it in self.tasks.items()})

    def refusal(self, event: List[str]) -> str:
        """The first refusal that fits, or nothing."""
        word = event[0]
        if word == "reverse":
            return "" if self.off() else "E11"
        if word in CONTROLS:
            top = len(self.trace.patches) if word == "enable" else 0
            return "E10" if self.off() else "E12" if self.target == top else ""
        if word in SCANS:
            return ""
        task = self.tasks.get(int(event[1]))
        if task is None:
            return "E1"
        if word == "fork" and int(event[2]) in self.used:
            return "E4"
        if word in ("enter", "exit", "resched", "fork", "die") and task.kind != "normal" or word == "idle" and task.kind != "idle":
            return "E5"
        if task.mode != {"wake": ASLEEP, "enter": USER}.get(word, KERNEL):
            return "E6"
        if word == "call" and len(task.stack) == 100:
            return "E7"
        if word == "ret" and not task.stack:
            return "E8"
        return "E9" if word in ("exit", "idle", "die") and task.stack else ""

    def act(self, number: int, event: List[str]) -> str:
        """What a task's event does by itself; the reply of a call. At `resched` it is nothing."""
        word, who = event[0], int(event[1])
        task = self.tasks[who]
        if word == "call":
            task.stack.append(Frame(event[2], task.level, number))
            self.count_call(who, event[2], task.level)
            return f"ran {task.level}"
        if word == "ret":
            task.stack.pop()
            self.end_stays(who)
        elif word == "fork":
            child = int(event[2])
            together = self.model == "all-at-once" or self.model == "process-group" and event[3] == "share"
            self.bear(child, Task("normal", KERNEL, task.level, task.group if together else child, []))
            self.births[number] = (self.tasks[child].group, who, task.group)
        elif word == "die":
            del self.tasks[who]
        else:
            task.mode = {"sleep": ASLEEP, "wake": KERNEL, "enter": KERNEL, "exit": USER}.get(word, task.mode)
        return ""

    def turn(self, number: int, word: str) -> None:
        """A leg opens."""
        if self.legs:
            self.end_leg(number - 1)
        to = {"enable": self.target + 1, "disable": self.target - 1, "reverse": self.before}[word]
        self.before, self.target = self.target, to
        self.legs.append(Leg(number, to, number))

    def switch(self, number: int, event: List[str]) -> Set[int]:
        """The groups that go over: looked at, waiting, and kept back by no live member."""
        over = set()
        for group in self.definition.looked_at(self.model, event, self.tasks) & self.off():
            look: Look = {}
            for who, task in sorted(self.tasks.items()):
                if task.group == group:
                    look[who] = self.definition.blame(self.model, event[0], task, self.stale(task))
            self.looks[number][group] = look
            if not any(look.values()):
                over.add(group)
        for task in self.tasks.values():
            if task.group in over:
                task.level = self.target
        return over

    def stale(self, task: Task) -> List[int]:
        """The serials of the frames that the transition would leave in another version, the oldest first."""
        version = self.trace.version
        return [frame.serial for frame in task.stack if version(frame.name, frame.level) != version(frame.name, self.target)]

    # -- legs and stays
    def end_leg(self, last: int) -> None:
        """The last leg ends with this event."""
        self.legs[-1].last = last
        if self.legs[-1].complete is None:
            self.legs[-1].waiting = sorted(self.off())

    def end(self) -> None:
        """The trace ends."""
        if self.legs:
            self.end_leg(len(self.trace.events))

    def count_call(self, who: int, name: str, level: int) -> None:
        """A call of a patch's function begins a stay of its task, or goes on with it."""
        for patch, names in enumerate(self.trace.patches, 1):
            if name in names:
                if (who, patch) not in self.open_stays:
                    self.open_stays[who, patch] = len(self.stays)
                    self.stays.append(set())
                self.stays[self.open_stays[who, patch]].add(level >= patch)

    def end_stays(self, who: int) -> None:
        """The stays end of whose patch no function is on the stack any more."""
        for patch, names in enumerate(self.trace.patches, 1):
            if not any(frame.name in names for frame in self.tasks[who].stack):
                self.open_stays.pop((who, patch), None)

    def lines(self) -> List[str]:
        """The report without its certificates."""
        lines = ["lpreport 3", f"model {self.model}", *self.replies]
        for leg in self.legs:
            how = f"waiting {len(leg.waiting)}" if leg.complete is None else f"complete {leg.complete}"
            lines.append(f"leg {leg.opened} to {leg.target} {how}")
        return lines + [f"stays {len(self.stays)} mixed {sum(len(sides) == 2 for sides in self.stays)}"]
