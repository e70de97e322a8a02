"""The plain definition of a task's own check (own_checks.py): rows worked by hand, wrong definitions, and the program."""

import os
import shlex
import shutil
import sys
import unittest
from typing import Dict, List, Optional, Set, Type

sys.dont_write_bytecode = True

from own_check_certificates import faults, without
from own_check_traces import random_trace
from own_checks import KERNEL, MODELS, SCANS, Blame, Definition, Outcome, Task, Trace
from try_own_checks import BUILT, differences, run

PROGRAM = os.environ.get("LPT", str(BUILT))
needs_program = unittest.skipUnless(shutil.which(shlex.split(PROGRAM)[0]), "the program isn't built")
TRACES = 40         # tests/try_own_checks.py --traces N tries more

# Task 1 is in a, which the patch has, and task 2 in b, which it hasn't; each checks itself, task 1 again once it is back from a.
OWN = "enter 1,call 1 a,call 1 b,enter 2,call 2 b,enable,resched 1,resched 2,ret 1,ret 1,idle 3,resched 1"
# Task 1 and its thread 4, which ends.
THREADS = "enter 1,fork 1 4 share,enable,resched 1,die 4,resched 1"
REFUSED = "resched 1,resched 3,resched 7,enter 1,sleep 1,resched 1,wake 1,enable,resched 1"


def trace_of(words: str) -> Trace:
    """A trace of one patch, of a, with the tasks 1 and 2 in user space and the idle task 3."""
    return Trace(["a", "b"], [["a"]], {1: "normal", 2: "normal", 3: "idle"}, [text.split(" ") for text in words.split(",")])


def replies(words: str, model: str) -> List[str]:
    """The replies to the own checks of a trace."""
    trace = trace_of(words)
    told = Outcome(trace, model, Definition()).replies
    return [line for line, event in zip(told, trace.events) if event[0] == "resched"]


class Rows(unittest.TestCase):
    """What the definition says of rows worked by hand."""

    def test_the_stack_decides_while_the_task_runs(self) -> None:
        wanted: Dict[str, List[str]] = {
            "hybrid": ["7 done", "8 over 2", "12 over 1 complete"], "process-group": ["7 done", "8 over 2", "12 over 1 complete"],
            "immediate": ["7 over 1", "8 over 2", "12 done"],
            "leave-kernel": ["7 done", "8 done", "12 done"], "all-at-once": ["7 done", "8 done", "12 done"]}
        for model in MODELS:
            self.assertEqual(replies(OWN, model), wanted[model], model)

    def test_a_group_is_checked_by_its_only_live_member(self) -> None:
        self.assertEqual(replies(THREADS, "process-group"), ["4 done", "6 over 1"])
        self.assertEqual(replies(THREADS, "hybrid"), ["4 over 1", "6 done"])

    def test_refusals(self) -> None:
        """In user space and off its CPU E6, an idle task E5, nobody E1; with frames it is accepted."""
        for model in MODELS:
            self.assertEqual(replies(REFUSED, model)[:4], ["1 refused E6", "2 refused E5", "3 refused E1", "6 refused E6"])

    def test_the_innermost_frame_isnt_all(self) -> None:
        outcome = Outcome(trace_of(OWN), "hybrid", Definition())
        self.assertEqual(outcome.looks[7], {1: {1: Blame("frame", 2)}})


class NoCheck(Definition):
    def looked_at(self, model: str, event: List[str], tasks: Dict[int, Task]) -> Set[int]:
        return set() if event[0] == "resched" else super().looked_at(model, event, tasks)


class OfLeaveKernel(Definition):
    def looked_at(self, model: str, event: List[str], tasks: Dict[int, Task]) -> Set[int]:
        return super().looked_at("hybrid" if event[0] == "resched" and model == "leave-kernel" else model, event, tasks)


class MovesAlone(Definition):
    def alone(self, tasks: Dict[int, Task], number: int) -> bool:
        return True


class OwnBlame(Definition):
    """Another blame at a task's own check."""

    def own(self, task: Task, stale: List[int]) -> Optional[Blame]:
        raise NotImplementedError

    def blame(self, model: str, word: str, task: Task, stale: List[int]) -> Optional[Blame]:
        if word == "resched" and model != "immediate":
            return self.own(task, stale)
        return super().blame(model, word, task, stale)


class Busy(OwnBlame):
    def own(self, task: Task, stale: List[int]) -> Optional[Blame]:
        return Blame("frame", stale[0]) if stale else Blame("busy", 0)


class NoStack(OwnBlame):
    def own(self, task: Task, stale: List[int]) -> Optional[Blame]:
        return None


class EmptyStack(OwnBlame):
    def own(self, task: Task, stale: List[int]) -> Optional[Blame]:
        return Blame("frame", task.stack[0].serial) if task.stack else None


class Innermost(OwnBlame):
    def own(self, task: Task, stale: List[int]) -> Optional[Blame]:
        return Blame("frame", stale[-1]) if stale and task.stack[-1].serial == stale[-1] else None


class WalksAdmitRunning(Definition):
    def blame(self, model: str, word: str, task: Task, stale: List[int]) -> Optional[Blame]:
        found = super().blame(model, word, task, stale)
        return None if found == Blame("busy", 0) and word in SCANS and task.mode == KERNEL else found


WRONG: List[Type[Definition]] = [NoCheck, OfLeaveKernel, MovesAlone, Busy, NoStack, EmptyStack, Innermost, WalksAdmitRunning]


class Wrong(unittest.TestCase):
    """The traces of the tests tell each wrong definition from the right one."""

    def test_each_differs(self) -> None:
        right = [(trace, model, Outcome(trace, model, Definition()).lines())
                 for trace in map(random_trace, range(1, TRACES + 1)) for model in MODELS]
        for wrong in WRONG:
            with self.subTest(wrong=wrong.__name__):
                self.assertTrue(any(Outcome(trace, model, wrong()).lines() != lines for trace, model, lines in right))


@needs_program
class Program(unittest.TestCase):
    def test_random_traces(self) -> None:
        for seed in range(1, TRACES + 1):
            trace = random_trace(seed)
            for model in MODELS:
                with self.subTest(seed=seed, model=model):
                    lines = run(PROGRAM, ["run", model], trace.text())
                    self.assertEqual(list(differences(lines, Outcome(trace, model, Definition()))), [])

    def test_a_changed_certificate_is_told(self) -> None:
        """The own check at 7 is refused by the frame of 2: another frame, another event, or no line at all is a fault."""
        trace = trace_of(OWN)
        outcome = Outcome(trace, "hybrid", Definition())
        lines = run(PROGRAM, ["run", "hybrid"], trace.text())
        self.assertIn("hold 1 1 2 7 7", lines)
        for old, new in (("hold 1 1 2 7 7", "hold 1 1 3 7 7"), ("hold 1 1 2 7 7", "hold 1 1 2 7 10"),
                         ("hold 1 1 2 7 7", "busy 1 1 7"), ("hold 1 1 2 7 7", ""), ("floor 6 1 11", "floor 6 2 11")):
            changed = [new if line == old else line for line in lines if new or line != old]
            self.assertNotEqual(list(differences(changed, outcome)), [], (old, new))
        _, certificates = without(lines)
        self.assertEqual(list(faults(outcome, certificates[6][0])), [])

    def test_a_changed_reply_is_told(self) -> None:
        trace = trace_of(OWN)
        lines = run(PROGRAM, ["run", "hybrid"], trace.text())
        changed = [line.replace("8 over 2", "8 done") for line in lines]
        told = list(differences(changed, Outcome(trace, "hybrid", Definition())))
        self.assertEqual(told, ["line 10 is '8 done', and not '8 over 2'"])


if __name__ == "__main__":
    unittest.main()
