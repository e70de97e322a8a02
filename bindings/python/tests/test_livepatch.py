"""The C interface through Python: the worked rows, random traces, and what a caller may do wrong."""

from __future__ import annotations

import os
import random
import subprocess
import sys
import unittest
from typing import List

HERE = os.path.dirname(os.path.abspath(__file__))
sys.path[:0] = [HERE, os.path.dirname(HERE)]

import livepatch  # noqa: E402
import traces  # noqa: E402

PROGRAM = os.environ.get("LPT", os.path.join(traces.TOP, "crates", "lpt", "out", "lpt"))

try:
    livepatch.library()
    MISSING = ""
except OSError as error:
    MISSING = f"scripts/build-c has built no library: {error}"


def random_event(at: random.Random, tasks: List[int]) -> List[str]:
    task = str(at.choice(tasks))
    kind = at.choice(
        "call call call ret ret ret sleep wake enter enter exit exit exit fork die walk walk stop enable disable reverse idle resched resched".split()
    )
    if kind == "call":
        return [kind, task, at.choice("ab")]
    if kind == "fork":
        tasks.append(at.randrange(1, 12))
        return [kind, task, str(tasks[-1]), at.choice(["own", "share"])]
    return [kind] if kind in ("walk", "stop", "enable", "disable", "reverse") else [kind, task]


def random_trace(seed: int) -> List[str]:
    at = random.Random(seed)
    lines = ["lptrace 3", "sym a", "sym b", "sym c", "patch 1 a"]
    lines += ["patch 2 b"] * at.randrange(2)
    tasks = list(range(1, 2 + at.randrange(4)))
    lines += [f"boot {task} {'idle' if at.random() < 0.2 else 'normal'}" for task in tasks]
    return lines + [" ".join(random_event(at, tasks)) for _ in range(120)]


@unittest.skipIf(MISSING, MISSING)
class Rows(unittest.TestCase):
    def test_worked_rows(self) -> None:
        """Each worked row of a run gives the replies of the row."""
        count = 0
        for name, model, lines, wanted in traces.rows():
            with self.subTest(name):
                self.assertEqual(traces.replies(traces.trace_of(lines), model), wanted)
            count += 1
        self.assertGreater(count, 50)

    @unittest.skipUnless(os.path.exists(PROGRAM), "the program isn't built")
    def test_random_traces(self) -> None:
        """What the program gives, event by event."""
        for seed in range(200):
            lines = random_trace(seed)
            model = livepatch.models()[seed % len(livepatch.models())]
            text = "".join(line + "\n" for line in lines)
            ran = subprocess.run([PROGRAM, "run", model], input=text, capture_output=True, text=True, check=True)
            trace = traces.trace_of(lines)
            report = ran.stdout.split("\n")[2 : 2 + len(trace.events)]
            with self.subTest(f"seed {seed}, {model}"):
                self.assertEqual(traces.replies(trace, model), report)

    @unittest.skipUnless(os.path.exists(PROGRAM), "the program isn't built")
    def test_certificates(self) -> None:
        """Each certificate that is made in random traces is accepted by the program, as the text that it is."""
        count = 0
        for seed in range(30):
            lines = random_trace(seed)
            model = livepatch.models()[seed % len(livepatch.models())]
            trace = traces.trace_of(lines)
            with traces.engine_of(trace, model) as engine:
                for words in trace.events:
                    traces.step(engine, words)
                for group in range(13):
                    cert = engine.certificate(group)
                    if cert is not None:
                        text = "".join(line + "\n" for line in [*lines, "lpcert 1", *str(cert).split("\n")])
                        ran = subprocess.run([PROGRAM, "check", model], input=text, capture_output=True, text=True)
                        self.assertEqual(ran.stdout, "accepted\n", text)
                        count += 1
        self.assertGreater(count, 10)


@unittest.skipIf(MISSING, MISSING)
class Calls(unittest.TestCase):
    def test_states(self) -> None:
        with livepatch.Engine("hybrid", [["a"]], [1, (2, "idle")]) as engine:
            self.assertEqual(engine.task(1), livepatch.Task(0, 1, "user", 0))
            self.assertEqual(engine.task(2), livepatch.Task(0, 2, "kernel", 0))
            self.assertIsNone(engine.task(3))
            engine.step("enter", 1)
            self.assertEqual(str(engine.step("call", 1, "a")), "ran 0")
            engine.step("sleep", 1)
            self.assertEqual(str(engine.step("enable")), "done")
            self.assertIsNone(engine.blame(1))
            engine.step("walk")
            self.assertEqual(engine.blame(1), livepatch.Blame(1, 2))
            self.assertEqual(engine.task(1), livepatch.Task(0, 1, "asleep", 1))
            self.assertEqual(engine.state(), livepatch.State(5, 1, True))
            self.assertEqual(str(engine.certificate(1)), "waiting 4 1 5\nhold 1 1 2 5 5")
            self.assertIsNone(engine.certificate(7))
            for kind in ("wake", "ret"):
                engine.step(kind, 1)
            self.assertIsNone(engine.blame(1))
            self.assertEqual(str(engine.step("exit", 1)), "over 1")
            self.assertEqual(str(engine.step("idle", 2)), "over 2 complete")
            self.assertEqual(engine.state(), livepatch.State(9, 1, False))

    def test_models(self) -> None:
        """The names in the order of their numbers."""
        names = ("hybrid", "leave-kernel", "all-at-once", "immediate", "process-group")
        self.assertEqual(livepatch.models()[:5], names)

    def test_refusals(self) -> None:
        """Each status by its name; an engine that was refused can still be freed."""
        for name, arguments in {
            "NO_MODEL": ("none", [["a"]], [1]),
            "PATCH_EMPTY": ("hybrid", [[]], [1]),
            "PATCH_DOUBLED": ("hybrid", [["a", "a"]], [1]),
            "PATCH_TOO_MANY": ("hybrid", [[f"f{n}" for n in range(257)]], [1]),
            "TOO_MANY_PATCHES": ("hybrid", [["a"]] * 17, [1]),
            "PATCH_LENGTHS": ("hybrid", [[f"f{n}" for n in range(m, m + 200)] for m in range(0, 4200, 200)], [1]),
            "TASK_RANGE": ("hybrid", [["a"]], [0]),
            "TASK_DOUBLED": ("hybrid", [["a"]], [5, 6, 5]),
        }.items():
            with self.subTest(name), self.assertRaises(livepatch.LivepatchError) as raised:
                livepatch.Engine(*arguments)
            self.assertEqual(raised.exception.name, name)

    def test_no_engine(self) -> None:
        engine = livepatch.Engine("immediate", [["a"]], [1])
        engine.close()
        engine.close()
        for call in (lambda: engine.step("walk"), engine.state, lambda: engine.task(1), lambda: engine.certificate(1)):
            with self.assertRaises(livepatch.LivepatchError) as raised:
                call()
            self.assertEqual(raised.exception.name, "NO_ENGINE")

    def test_a_refused_event_is_an_answer(self) -> None:
        with livepatch.Engine("hybrid", [["a"]], [1]) as engine:
            self.assertEqual(str(engine.step("call", 7, "a")), "refused E1")
            self.assertEqual(str(engine.step("call", 1, "nobody")), "refused E2")
            self.assertEqual(engine.state().events, 2)
            for bad in (-1, 65_536):
                with self.assertRaises(ValueError):
                    engine.step("ret", bad)


if __name__ == "__main__":
    unittest.main()
