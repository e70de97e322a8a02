"""Twenty random mixtures, for scripts/measure to see that none grows faster than its events and its report.

What there is of tasks, births, deaths, scans, patches and control events is drawn for each of them, by its number.
"""
import random
from itertools import count
from typing import Dict, Iterator, List, NamedTuple, Tuple

from traces import LAST_TASK, Trace, names

MODELS = ["hybrid", "leave-kernel", "all-at-once", "immediate", "process-group"]
MIXTURES = 20

# Up to so many boot tasks are idle ones.
MOST_IDLE = 4


class Mixture(NamedTuple):
    """What a trace has. With `wide` the tasks are more with the events, and control events and scans stay as many; else the other way.
    So a longer trace is the same at a larger scale.
    """

    seed: int
    model: str
    wide: bool
    tasks: int
    patches: int
    depth: int
    idle: int
    scans: int
    controls: int
    birth_in: int
    shares: float
    sleeps: float

    def what(self) -> str:
        """In words, for lists."""
        if self.wide:
            more = f"a task in {self.tasks} events, {self.controls} control events, {self.scans:,} scans"
        else:
            more = f"{self.tasks:,} tasks, a control event in {self.controls}, a scan in {self.scans:,}"
        births = f"a birth or death in {self.birth_in:,}, {self.shares:.0%} of the children in their parent's group"
        return f"{more}, {births}, {self.patches} patches, {self.depth} deep"

    def make(self, events: int) -> Trace:
        """Its trace for a number of events."""
        tasks = min(max(events // self.tasks, 1) if self.wide else self.tasks, LAST_TASK // 2)
        symbols = names(16 * self.patches)
        head = ["lptrace 2", *(f"sym {name}" for name in symbols)]
        # A patch has half of the functions in common with the next.
        head += [f"patch {patch + 1} {name}" for patch in range(self.patches) for name in symbols[8 * patch : 8 * patch + 16]]
        head += [f"boot {task} normal" for task in range(1, tasks + 1)]
        head += [f"boot {task} idle" for task in range(tasks + 1, tasks + self.idle + 1)]
        often = [max(events // many, 1) if self.wide else many for many in (self.controls, self.scans)]
        return head, Life(self, tasks, symbols).events(*often)


class Life:
    """The tasks of a mixture as they live, so that few events are refused."""

    def __init__(self, of: Mixture, tasks: int, symbols: List[str]) -> None:
        self.of = of
        self.symbols = symbols
        self.draw = random.Random(of.seed)
        self.live = list(range(1, tasks + 1))
        self.depth: Dict[int, int] = {}
        self.asleep: Dict[int, bool] = {}
        self.idle = range(tasks + 1, tasks + of.idle + 1)
        self.unborn = iter(range(tasks + of.idle + 1, LAST_TASK + 1))

    def events(self, control_in: int, scan_in: int) -> Iterator[str]:
        for number in count(1):
            if number % control_in == 0:
                yield self.draw.choice(["enable", "enable", "disable", "reverse"])
            if number % scan_in == 0:
                yield from self.scan()
            yield from self.task(self.draw.choice(self.live))

    def scan(self) -> Iterator[str]:
        yield "stop" if self.of.model == "all-at-once" else "walk"
        yield from (f"idle {task}" for task in self.idle)

    def task(self, task: int) -> Iterator[str]:
        """What a task does next: it has no depth while it is in user space."""
        depth = self.depth.get(task)
        if depth is None:
            self.depth[task] = 0
            yield f"enter {task}"
        elif self.asleep.pop(task, False):
            yield f"wake {task}"
        elif self.draw.random() < self.of.sleeps:
            self.asleep[task] = True
            yield f"sleep {task}"
        elif self.draw.random() < 1 / self.of.birth_in:
            yield from self.birth_or_death(task, depth)
        elif depth < self.of.depth and self.draw.random() < 0.5:
            self.depth[task] = depth + 1
            yield f"call {task} {self.draw.choice(self.symbols)}"
        elif depth:
            self.depth[task] = depth - 1
            yield f"ret {task}"
        else:
            del self.depth[task]
            yield f"exit {task}"

    def birth_or_death(self, task: int, depth: int) -> Iterator[str]:
        child = next(self.unborn, None)
        if child and self.draw.random() < 0.5 or len(self.live) == 1:
            if child:
                self.live.append(child)
                self.depth[child] = 0
                yield f"fork {task} {child} {'share' if self.draw.random() < self.of.shares else 'own'}"
            return
        self.live.remove(task)
        yield from [f"ret {task}"] * depth
        yield f"die {task}"


def drawn(number: int) -> Mixture:
    """The mixture of a number, from 1: each model has as many."""
    draw = random.Random(number)
    wide = draw.random() < 0.5
    return Mixture(
        seed=number,
        model=MODELS[number % len(MODELS)],
        wide=wide,
        tasks=draw.choice([20, 50, 100, 400]) if wide else draw.choice([5, 50, 500, 4000]),
        patches=draw.choice([1, 2, 4, 16]),
        depth=draw.choice([1, 4, 20, 100]),
        idle=draw.randint(0, MOST_IDLE),
        # Each scan may have a line of the report for each task.
        scans=draw.choice([2000, 200, 40] if wide else [3, 10, 100]),
        controls=draw.choice([10, 30, 100] if wide else [30, 300, 3000]),
        birth_in=draw.choice([5, 20, 100, 1000]),
        shares=draw.choice([0.1, 0.5, 0.9]),
        sleeps=draw.choice([0.05, 0.2, 0.5]),
    )


def mixtures() -> Iterator[Tuple[str, Mixture]]:
    """Each with its name."""
    return ((f"mixture-{number}", drawn(number)) for number in range(1, MIXTURES + 1))
