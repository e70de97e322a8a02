"""./lpt: the program that was built, where there is one, and else a trial of the sources."""

import os
import pathlib
import shutil
import subprocess
import sys
import tempfile
import unittest
from typing import List
from unittest import mock

sys.dont_write_bytecode = True

from process import play
from rows import Row, rows_of
from try_program import BUILT, FOLDERS, ROOT

ROWS = ("the_report_of_the_trace", "the_answer_to_a_certificate_that_is_refused", "unknown_models", "words_that_are_not_utf_8")

NAMES = "crates/lp_models/src/name.rt"

# A kit whose trial copies its input, or tells that it reached a limit.
ANSWERS = 'shift 2; echo "trial: $*"; cat; echo "lpt: as the program" >&2; echo "run=ended status=4" >&2; exit 4'
REACHES_A_LIMIT = 'echo "run=killed" >&2; exit 1'
TELLS = 'echo "the kit was asked" >&2; exit 9'


def written(path: pathlib.Path, text: str, age: int = 0) -> None:
    """Writes a file that can be run, of a moment that lies so many seconds back."""
    path.parent.mkdir(parents=True, exist_ok=True)
    path.write_text(text)
    path.chmod(0o755)
    moment = 1_700_000_000 - age
    os.utime(path, (moment, moment))
    os.utime(path.parent, (moment, moment))


class Checkout(unittest.TestCase):
    """A checkout of two crates and one above the program, with a kit that is a shell's script."""

    def setUp(self) -> None:
        room = tempfile.TemporaryDirectory()
        self.addCleanup(room.cleanup)
        self.root = pathlib.Path(room.name)
        self.root.chmod(0o755)
        shutil.copy(ROOT / "lpt", self.root / "lpt")
        written(self.root / NAMES, (ROOT / NAMES).read_text(), age=20)
        written(self.root / "crates/lpt/src/main.rt", "", age=20)
        written(self.root / "crates/lp_rows/src/main.rt", "", age=20)
        written(self.root / "crates.txt", "lp_models:\nlpt may_wait=1: lp_models\nlp_rows: lpt\n", age=20)
        path = f"{self.root / 'bin'}{os.pathsep}{os.environ['PATH']}"
        patch = mock.patch.dict(os.environ, {"PATH": path})
        patch.start()
        self.addCleanup(patch.stop)

    def kit(self, script: str) -> None:
        written(self.root / "bin" / "rt", f"#!/bin/sh\n{script}\n")

    def ended(self, *words: str) -> "subprocess.CompletedProcess[str]":
        return subprocess.run([str(self.root / "lpt"), *words], input="the trace\n", capture_output=True, text=True)


class Trial(Checkout):
    def test_wrong_words_are_answered_at_once(self) -> None:
        self.kit(TELLS)
        rows: List[Row] = [row for folder in FOLDERS for row in rows_of(folder / "words.rows") if row.wanted_status() == 2]
        self.assertGreater(sum(len(row.commands) for row in rows), 70)
        for row in rows:
            for words in row.commands:
                with self.subTest(row.name, words=words):
                    ended = play(str(self.root / "lpt"), words, row)
                    self.assertEqual((ended.status, ended.output, ended.error), (2, b"", row.error))
                    self.assertFalse(ended.taken)

    def test_the_trial_answers(self) -> None:
        self.kit(ANSWERS)
        asked = ("run hybrid", "run -- process-group", "check leave-kernel --", "threads immediate", "compare", "compare --json --")
        for words in asked:
            with self.subTest(words):
                ended = self.ended(*words.split())
                self.assertEqual((ended.returncode, ended.stdout), (4, f"trial: {words}\nthe trace\n"))
                self.assertRegex(ended.stderr, r"\Alpt: not proved here yet.*\nlpt: as the program\n\Z")

    def test_the_trial_gives_no_answer(self) -> None:
        self.kit(REACHES_A_LIMIT)
        ended = self.ended("run", "all-at-once")
        self.assertEqual((ended.returncode, ended.stdout), (125, ""))
        self.assertIn("run=killed\nlpt: the trial run gave no answer", ended.stderr)


class Program(Checkout):
    def setUp(self) -> None:
        super().setUp()
        self.kit(TELLS)
        written(self.root / "crates/lpt/out/lpt", '#!/bin/sh\necho "$*"; cat; echo done >&2; exit 3\n', age=10)

    def says(self, error: str) -> None:
        ended = self.ended("run", "any word")
        self.assertEqual((ended.returncode, ended.stdout, ended.stderr), (3, "run any word\nthe trace\n", f"{error}done\n"))

    def test_nothing_changed(self) -> None:
        self.says("")

    def test_a_line_of_another_crate_came(self) -> None:
        written(self.root / "crates.txt", "lp_models:\nlpt may_wait=1: lp_models\nlp_rows: lpt\nlp_new: lpt\n")
        written(self.root / "crates/lp_new/src/main.rt", "")
        written(self.root / "crates/lp_rows/src/main.rt", "")
        self.says("")

    def test_a_source_below_changed(self) -> None:
        written(self.root / "crates/lp_models/src/new.rt", "")
        self.says("lpt: crates/lp_models/src has changed since this program was proved and built; ./prove does it again\n")

    def test_a_source_of_its_own_changed(self) -> None:
        written(self.root / "crates/lpt/src/main.rt", "")
        self.says("lpt: crates/lpt/src has changed since this program was proved and built; ./prove does it again\n")


@unittest.skipUnless(BUILT.is_file(), "the program isn't built")
class Front(unittest.TestCase):
    def test_rows(self) -> None:
        rows = {row.name: row for row in rows_of(ROOT / "tests" / "program" / "words.rows")}
        for row in (rows[name] for name in ROWS):
            for words in row.commands:
                with self.subTest(row.name, words=words):
                    ended = play(str(ROOT / "lpt"), words, row)
                    self.assertEqual((ended.status, ended.output), (row.wanted_status(), bytes(row.output)))
                    # A line before it may say that a source has changed.
                    self.assertTrue((ended.error or b"").endswith(row.error))


if __name__ == "__main__":
    unittest.main()
