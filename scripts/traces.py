"""Events and traces that the workloads of scripts/measure are made of.

A trace is made for a number of events: its lines before them, and then the events, of which as many are taken. It is the
same each time.
"""
import random
from itertools import chain, cycle, islice, repeat
from typing import Iterable, Iterator, List, Sequence, Tuple, Union

# Numbers of tasks end at 65,535.
LAST_TASK = 65_535

# The lines before the events, and the events, maybe without an end.
Trace = Tuple[List[str], Iterable[str]]


def head(tasks: int, symbols: Iterable[str] = ("a", "b"), patch: Iterable[str] = ("a",), idle: Iterable[int] = ()) -> List[str]:
    """The lines before the events: tasks from 1 on, and idle ones."""
    lines = ["lptrace 1"]
    lines += [f"sym {name}" for name in symbols]
    lines += [f"patch {name}" for name in patch]
    lines += [f"boot {task} normal" for task in range(1, tasks + 1)]
    return lines + [f"boot {task} idle" for task in idle]


def names(count: int, digits: int = 1) -> List[str]:
    return [f"function_{number:0{digits}}" for number in range(count)]


def drawn(seed: int, last: int) -> Iterator[int]:
    """Numbers from 1 to the last one, for ever."""
    draw = random.Random(seed)
    while True:
        yield draw.randint(1, last)


def with_others(lines: Iterator[str], gap: int, others: Iterable[str]) -> Iterator[str]:
    """The lines, and after each few of them the next of the others."""
    for other in others:
        yield from islice(lines, gap - 1)
        yield other


def into_kernel(tasks: Iterable[int], calls: Iterable[str] = (), sleeps: bool = False) -> Iterator[str]:
    """Each task enters the kernel, calls functions there, and sleeps."""
    for task in tasks:
        yield f"enter {task}"
        yield from (f"call {task} {name}" for name in calls)
        if sleeps:
            yield f"sleep {task}"


class Crowd:
    """Tasks that live beside one another: whose turn it is, is drawn."""

    def __init__(self, seed: int, tasks: int, symbols: List[str], unborn: Iterable[int] = ()) -> None:
        self.draw = random.Random(seed)
        self.symbols = symbols
        self.unborn = iter(unborn)
        self.lives = [self.parent(task) for task in range(1, tasks + 1)]

    def function(self) -> str:
        return self.symbols[int(self.draw.random() * len(self.symbols))]

    def parent(self, task: int) -> Iterator[str]:
        """System calls for ever, 3 to 10 functions deep; a fourth sleep there, and of the others one in 100 forks."""
        while True:
            yield f"enter {task}"
            depth = self.draw.randint(3, 10)
            for _ in range(depth):
                yield f"call {task} {self.function()}"
            if self.draw.random() < 0.25:
                yield f"sleep {task}"
                yield f"wake {task}"
            elif self.draw.random() < 0.01:
                for child in islice(self.unborn, 1):
                    self.lives.append(self.child(child))
                    yield f"fork {task} {child} {'own' if child % 2 else 'share'}"
            yield from repeat(f"ret {task}", depth)
            yield f"exit {task}"

    def child(self, task: int) -> Iterator[str]:
        yield from [f"call {task} {self.function()}" for _ in range(3)]
        yield from repeat(f"ret {task}", 3)
        yield f"die {task}"

    def events(self) -> Iterator[str]:
        while True:
            place = int(self.draw.random() * len(self.lives))
            line = next(self.lives[place], None)
            if line:
                yield line
            else:
                self.lives[place] = self.lives[-1]
                self.lives.pop()


def up_and_down(seed: int, tasks: Sequence[int], symbols: Sequence[str]) -> Iterator[str]:
    """Calls and returns of tasks that are in the kernel, in equal parts."""
    draw = random.Random(seed)
    depths = dict.fromkeys(tasks, 0)
    while True:
        task = tasks[int(draw.random() * len(tasks))]
        calls = depths[task] == 0 or depths[task] < 100 and draw.random() < 0.5
        depths[task] += 1 if calls else -1
        yield f"call {task} {draw.choice(symbols)}" if calls else f"ret {task}"


# Tasks in and out of the kernel.


def syscalls(count: int, tasks: int = 1000, scan: str = "walk") -> Trace:
    symbols, idle = names(64), range(tasks + 1, tasks + 5)
    crowd = Crowd(1, tasks, symbols, range(tasks + 5, 60_000))
    lines = with_others(crowd.events(), 250, cycle([f"idle {task}" for task in idle]))
    lines = with_others(lines, 1000, repeat(scan))
    return head(tasks, symbols, symbols[::8], idle), chain(islice(lines, count // 2), ["enable"], lines)


def patches(count: int) -> Trace:
    symbols = names(4096)
    top = ["lptrace 2", *(f"sym {name}" for name in symbols)]
    for patch in range(1, 17):
        top += [f"patch {patch} {symbols[(90 * patch + 7 * step) % 4096]}" for step in range(256)]
    lines = with_others(Crowd(2, 1000, symbols, range(1001, 60_000)).events(), 100, repeat("walk"))
    turns = cycle(["enable"] * 8 + ["reverse"] + ["enable"] * 9 + ["disable"] * 17)
    return top + [f"boot {task} normal" for task in range(1, 1001)], with_others(lines, max(2, count // 100), turns)


def deep(count: int) -> Trace:
    tasks = range(1, 65)
    rounds = ([f"call {task} a"] * 100 + ["walk"] + [f"ret {task}"] * 100 for task in cycle(tasks))
    return head(64), chain(into_kernel(tasks), ["enable"], chain.from_iterable(rounds))


def long_names(count: int) -> Trace:
    symbols = names(4096, 503)
    tasks = range(1, 101)
    lines = up_and_down(3, tasks, symbols)
    return head(100, symbols, symbols[::16]), chain(into_kernel(tasks), ["enable"], lines)


def refused(count: int) -> Trace:
    """Task 1 has a full stack, 2 an empty one, 3 is idle, 4 to 99 are in user space, and from 100 on there is none."""
    draw = random.Random(4)
    kinds = ["call {none} b", "ret {none}", "call 1 b", "call {user} a", "ret {user}", "exit {user}", "sleep {user}"]
    kinds += ["wake {user}", "enter 3", "exit 1", "die 1", "ret 2", "idle {user}", "fork 1 {user} own", "fork {user} 200 share"]
    kinds += ["enable", "disable"]
    begin = ["enter 1", *["call 1 b"] * 100, "enter 2", "enable"]
    user, none = drawn(9, 96), drawn(10, LAST_TASK - 99)
    lines = (draw.choice(kinds).format(user=next(user) + 3, none=next(none) + 99) for _ in repeat(0))
    return [line.replace("boot 3 normal", "boot 3 idle") for line in head(99)], chain(begin, lines)


# Walks over tasks that wait.


def walks(count: int, tasks: int = 4000, also: str = "b") -> Trace:
    calls = ([f"enter {task}", f"call {task} {'a' if task % 2 else also}", f"sleep {task}"] for task in range(1, tasks + 1))
    return head(tasks), chain(chain.from_iterable(calls), ["enable"], repeat("walk"))


def wide_walks(count: int) -> Trace:
    return walks(count, tasks=count * 6 // 19, also="a")


def busy(count: int, tasks: int = 1000) -> Trace:
    return head(tasks), chain(["enable"], repeat("walk"))


def drained(count: int) -> Trace:
    tasks = count * 2 // 9
    leaving = [f"exit {task}" for task in range(1, tasks + 1)]
    scans = repeat("walk", count - 2 * tasks - 1)
    return head(tasks), chain(into_kernel(range(1, tasks + 1)), ["enable"], scans, leaving)


def disturbed(count: int, tasks: int = 4000) -> Trace:
    steps = ([f"wake {task}", f"ret {task}", f"call {task} a", f"sleep {task}"] for task in drawn(5, tasks))
    lines = with_others(chain.from_iterable(steps), 2, repeat("walk"))
    return head(tasks), chain(into_kernel(range(1, tasks + 1), "a", True), ["enable"], lines)


# Tasks that are born in a transition.


def children(count: int, dies_at_once: bool) -> Trace:
    last = min(count // 2, LAST_TASK)
    births = [[f"fork 1 {child} own", f"die {child}"] for child in range(2, last)]
    births = chain.from_iterable(births if dies_at_once else zip(*births))
    return head(1), chain(["enter 1", "enable", "walk"], births, ["exit 1"])


def generations(count: int, walks_too: bool = False, dies: bool = False) -> Trace:
    last = min(count // 2 if dies else count, LAST_TASK)
    births = [f"fork {parent} {parent + 1} own" for parent in range(1, last)]
    births = with_others(iter(births), 2, repeat("walk")) if walks_too else births
    return head(1), chain(["enter 1", "enable"], births, (f"die {task}" for task in range(1, last + 1)))


def fan(count: int) -> Trace:
    births = ([f"fork 1 {child} own", f"call {child} a", "walk"] for child in range(2, LAST_TASK))
    return head(1), chain(["enter 1", "call 1 a", "enable", "walk"], chain.from_iterable(births))


# Many transitions.


def legs(count: int, tasks: int = 4) -> Trace:
    return head(tasks), cycle(["enable", "reverse"])


def flips(count: int) -> Trace:
    return head(4), chain(into_kernel(range(1, 5), sleeps=True), cycle(["enable", "walk", "disable", "walk"]))


def reversals(count: int) -> Trace:
    turns = ([f"enter {task}", "reverse"] for task in cycle(range(1, 101)))
    return head(100), chain(["enable"], chain.from_iterable(turns))


def uneven_reversals(count: int, tasks: int = 100) -> Trace:
    return head(tasks), chain(["enable", "enter 1", "exit 1"], repeat("reverse"))


# All at once.


def lone_stops(count: int) -> Trace:
    return head(4000), chain(["enter 1", "call 1 a", "enable"], repeat("stop"))


def stops(count: int, tasks: int = 4000) -> Trace:
    """A function in 16 of those called is in the patch, and each third event is a stop."""
    lines = up_and_down(6, range(1, tasks), "a" + "b" * 15)
    begin = chain(into_kernel(range(1, tasks + 1)), [f"call {tasks} a", f"sleep {tasks}", "enable"])
    return head(tasks), chain(begin, with_others(lines, 3, repeat("stop")))


def lowest_returns(count: int) -> Trace:
    tasks = range(1, max(1, count // 4) + 1)
    ends = ([f"ret {task}", "stop"] for task in tasks)
    return head(len(tasks)), chain(into_kernel(tasks, "a"), ["enable", "stop"], chain.from_iterable(ends))


# Threads, which switch together.


def process(tasks: int) -> Iterator[str]:
    """A process of so many threads, all in the kernel."""
    return chain(["enter 1"], (f"fork 1 {task} share" for task in range(2, tasks + 1)))


def threads(count: int) -> Trace:
    lines = up_and_down(7, range(1, 4001), "ab")
    return head(1), chain(process(4000), ["enable"], with_others(lines, 500, repeat("walk")))


def sleeping_threads(count: int, tasks: int = 4000) -> Trace:
    """The last one sleeps in a function of the patch all along."""
    begin = chain(process(tasks), [f"call {tasks} a"], (f"sleep {task}" for task in range(1, tasks + 1)), ["enable"])
    steps = (
        [f"wake {task}", "walk", f"call {task} a", "walk", f"ret {task}", f"sleep {task}", "walk"]
        for task in drawn(8, tasks - 1)
    )
    return head(1), chain(begin, chain.from_iterable(steps))


def running_threads(count: int) -> Trace:
    return head(1), chain(process(count // 2), ["enable"], repeat("walk"))


def lowest_thread_returns(count: int) -> Trace:
    tasks = count // 7
    begin = ([f"call {task} a", f"sleep {task}"] for task in range(1, tasks + 1))
    ends = ([f"wake {task}", f"ret {task}", f"sleep {task}", "walk"] for task in range(1, tasks + 1))
    return head(1), chain(process(tasks), chain.from_iterable(begin), ["enable", "walk"], chain.from_iterable(ends))


def pairs(count: int) -> Trace:
    half = count // 11
    begin = (
        [f"enter {task}", f"fork {task} {half + task} share", f"call {task} a", f"sleep {task}", f"sleep {half + task}"]
        for task in range(1, half + 1)
    )
    turns = ([f"wake {task}", f"sleep {task}", "walk"] for task in cycle(range(1, half + 1)))
    return head(half), chain(chain.from_iterable(begin), ["enable", "walk"], chain.from_iterable(turns))


def held(count: int) -> Trace:
    return walks(count, tasks=count * 4 // 13, also="a")
