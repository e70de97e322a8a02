"""The workloads that scripts/measure times, by their names.

What a workload is says which things are as many as the events, if not all of its numbers stay.
"""
from functools import partial
from itertools import chain, cycle, islice, repeat
from typing import Callable, Dict, NamedTuple, Tuple

import traces
from mixtures import mixtures
from traces import Trace, head, names

MILLION = 1_000_000


class Workload(NamedTuple):
    """What makes the trace for a number of events, how many it is measured with, the words for `lpt`, and what it is."""

    make: Callable[[int], Trace]
    events: int
    words: str
    what: str


WORKLOADS: Dict[str, Workload] = {
    "syscalls": Workload(traces.syscalls, MILLION, "run hybrid",
        "1,000 tasks and 4 idle ones in and out of the kernel, a walk in 1,000 events, a patch after half of them"),
    "syscalls-64": Workload(partial(traces.syscalls, tasks=64), MILLION, "run hybrid",
        "syscalls of 64 tasks"),
    "syscalls-leave-kernel": Workload(traces.syscalls, MILLION, "run leave-kernel",
        "syscalls under leave-kernel"),
    "syscalls-all-at-once": Workload(partial(traces.syscalls, scan="stop"), MILLION, "run all-at-once",
        "syscalls under all-at-once, with stops in place of walks"),
    "syscalls-immediate": Workload(traces.syscalls, MILLION, "run immediate",
        "syscalls under immediate"),
    "syscalls-process-group": Workload(traces.syscalls, MILLION, "run process-group",
        "syscalls under process-group"),
    "syscalls-compare": Workload(traces.syscalls, MILLION, "compare",
        "syscalls under each of the five models"),
    "patches": Workload(traces.patches, MILLION, "run hybrid",
        "1,000 tasks as in syscalls, 16 patches of 256 functions, a walk in 100 events, 100 control events"),
    "patches-process-group": Workload(traces.patches, MILLION, "run process-group",
        "patches under process-group"),
    "patches-compare": Workload(traces.patches, MILLION, "compare --json",
        "patches under each of the five models"),
    "deep": Workload(traces.deep, MILLION, "run hybrid",
        "64 tasks call 100 functions deep, are walked over, and return"),
    "long-names": Workload(traces.long_names, 480_000, "run hybrid",
        "100 tasks call and return, among 4,096 functions whose names have 512 bytes and differ at the end"),
    "refused": Workload(traces.refused, MILLION, "run hybrid",
        "events that are refused, of each kind"),
    "walks": Workload(traces.walks, 30_000, "run hybrid",
        "4,000 tasks asleep, half of them in a function of the patch, and walks"),
    "walks-long": Workload(partial(traces.walks, also="a"), MILLION, "run hybrid",
        "4,000 tasks asleep, all in a function of the patch, and walks"),
    "walks-wide": Workload(traces.wide_walks, 190_001, "run hybrid",
        "walks-long with six tasks for each walk: 60,000 and 10,000"),
    "busy": Workload(traces.busy, 5_001, "run hybrid",
        "1,000 tasks in user space at each walk: the report has a line for each task and walk"),
    "drained": Workload(traces.drained, 18_001, "run hybrid",
        "4,000 tasks on CPUs at each of 10,000 walks; then they switch one by one"),
    "disturbed": Workload(traces.disturbed, 400_000, "run hybrid",
        "4,000 waiting tasks, and between two walks one of them wakes, returns, calls or sleeps"),
    "disturbed-wide": Workload(lambda count: traces.disturbed(count, count // 7), 420_000, "run hybrid",
        "disturbed with a task for seven events: 60,000"),
    "forks": Workload(partial(traces.children, dies_at_once=True), 120_000, "run hybrid",
        "a waiting task forks 60,000 children, each of which ends before the next"),
    "forks-end": Workload(partial(traces.children, dies_at_once=False), 120_004, "run hybrid",
        "a waiting task forks 60,000 children, which all end; then it switches"),
    "generations": Workload(traces.generations, 2_002, "run hybrid",
        "each child forks the next: the report has a line for each task and each of its forebears"),
    "generations-walks": Workload(partial(traces.generations, walks_too=True), 2_002, "run hybrid",
        "generations with a walk after each fork"),
    "generations-end": Workload(partial(traces.generations, dies=True), 120_000, "run hybrid",
        "60,000 generations, which all end"),
    "fan": Workload(traces.fan, 180_000, "run hybrid",
        "a waiting task forks 60,000 children, each of which calls a function of the patch and is walked over"),
    "legs": Workload(traces.legs, 400_000, "run hybrid",
        "enable and reverse by turns, with 4 tasks that wait"),
    "legs-short": Workload(partial(traces.legs, tasks=1), MILLION, "run hybrid",
        "legs with one task"),
    "flips": Workload(traces.flips, MILLION, "run hybrid",
        "4 tasks asleep; a patch is enabled and disabled by turns, and all switch at a walk"),
    "reversals": Workload(traces.reversals, 200_000, "run hybrid",
        "100 waiting tasks, and a reversal at every other event"),
    "reversals-uneven": Workload(traces.uneven_reversals, 20_000, "run hybrid",
        "reversals alone, at which 99 tasks and one wait by turns"),
    "reversals-wide": Workload(lambda count: traces.uneven_reversals(count, count // 4), 4_000, "run hybrid",
        "reversals-uneven with 1,000 tasks, one for four events"),
    "stops-alone": Workload(traces.lone_stops, 30_000, "run all-at-once",
        "4,000 tasks, one of them in a function of the patch, and stops"),
    "stops": Workload(traces.stops, MILLION, "run all-at-once",
        "4,000 tasks that call and return, a stop at every third event"),
    "stops-wide": Workload(lambda count: traces.stops(count, count * 3 // 25), 500_000, "run all-at-once",
        "stops with twelve tasks for 100 events: 60,000"),
    "threads": Workload(traces.threads, MILLION, "run process-group",
        "a process of 4,000 threads that call and return, a walk in 500 events"),
    "threads-asleep": Workload(traces.sleeping_threads, MILLION, "run process-group",
        "a process of 4,000 threads asleep, of which one at a time wakes and calls, with walks in between"),
    "threads-asleep-wide": Workload(lambda count: traces.sleeping_threads(count, count * 3 // 25), 500_000, "run process-group",
        "threads-asleep with twelve threads for 100 events: 60,000"),
    "check-busy": Workload(partial(traces.busy, tasks=1), MILLION, "check hybrid",
        "a certificate with a line for each of a million walks, at which the task was on a CPU"),
    "check-holds": Workload(partial(traces.disturbed, tasks=1), MILLION, "check hybrid",
        "a certificate of a task that returned and called again between walks"),
    "check-births": Workload(partial(traces.generations, dies=True), 120_000, "check hybrid",
        "a certificate of 60,000 births"),
    # Those of which a plain engine's work grows with the square.
    "lowest-returns": Workload(traces.lowest_returns, 32_002, "run all-at-once",
        "8,000 tasks in a function of the patch, the lowest of which returns before each stop"),
    "lowest-thread-returns": Workload(traces.lowest_thread_returns, 56_002, "run process-group",
        "a process of 8,000 threads asleep in such a function, the lowest of which returns before each walk"),
    "pairs": Workload(traces.pairs, 88_002, "run process-group",
        "8,000 processes of two threads asleep, one of which wakes and sleeps before each walk"),
    "threads-running": Workload(traces.running_threads, 16_001, "run process-group",
        "a process of 8,000 threads on CPUs, and as many walks"),
    "check-held": Workload(traces.held, 130_001, "check hybrid",
        "a certificate of a task that was held at 10,000 walks, beside 40,000 others"),
}

WORKLOADS.update((name, Workload(of.make, 400_000, f"run {of.model}", of.what())) for name, of in mixtures())

# What there are more of, the greatest number that is tried, and the lines before the events and the events of a trace with so
# many.
MORE: Dict[str, Tuple[int, Callable[[int], Trace]]] = {
    "boot task": (60_000, lambda count: (head(count), [])),
    "boot task that called a function": (
        60_000,
        lambda count: (head(count), chain.from_iterable([f"enter {task}", f"call {task} b"] for task in range(1, count + 1))),
    ),
    "symbol": (4096, lambda count: (head(0, names(count), names(1)), [])),
    "patch of 256 functions": (
        16,
        lambda count: (
            ["lptrace 2", *(f"sym {name}" for name in names(4096))]
            + [f"patch {patch} {name}" for patch in range(1, count + 1) for name in names(256)],
            [],
        ),
    ),
    "event outside a leg": (MILLION, lambda count: (head(1), islice(cycle(["enter 1", "exit 1"]), count))),
    "refused event": (MILLION, lambda count: (head(1), repeat("exit 1", count))),
    "walk at which a task waits": (
        MILLION - 4,
        lambda count: (head(1), chain(["enter 1", "call 1 a", "sleep 1", "enable"], repeat("walk", count))),
    ),
    "walk at which a task is busy": (MILLION - 1, lambda count: (head(1), chain(["enable"], repeat("walk", count)))),
    "leg without a task": (MILLION, lambda count: (head(0), islice(cycle(["enable", "disable"]), count))),
    "leg with a task that waits": (MILLION // 2, lambda count: (head(1), islice(cycle(["enable", "reverse"]), 2 * count))),
    "child in a leg": (
        60_000,
        lambda count: (head(1), chain(["enter 1", "enable"], (f"fork 1 {task} own" for task in range(2, count + 2)))),
    ),
    "task of a leg": (60_000, lambda count: (head(count), ["enable"])),
}
