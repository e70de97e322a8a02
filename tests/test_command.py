"""The test command, in a folder where its parts are others: what it adds up, and that nothing which fails gets lost."""

import os
import pathlib
import shutil
import subprocess
import sys
import tempfile
import unittest
from typing import Dict, Optional, Tuple

ROOT = pathlib.Path(__file__).resolve().parent.parent

BUILT = {"crates/lpt/out/lpt": "", "crates/lpt/out/lpt.by-rattle": ""}

COMPILER = "path/gcc"

PASSING = "import unittest\nclass T(unittest.TestCase):\n    def test_a(self): pass\n"

MEMORY = {"scripts/refuse-memory": "#!/bin/sh\necho 1 passed, 0 failed\n"}

LIBRARY = {COMPILER: "", "scripts/build-c": "#!/bin/sh\n", **MEMORY, "bindings/python/tests/test_a.py": PASSING}

MIXED = PASSING + '    def test_b(self): self.fail()\n    @unittest.skip("b")\n    def test_c(self): pass\n'


def rows(line: str, status: int) -> Dict[str, str]:
    """The runner of rows, which ends so, with a test of its own."""
    return {"tests/try_program.py": f"print({line!r})\nraise SystemExit({status})\n", "tests/test_a.py": PASSING, **LIBRARY, **BUILT}


WELL = {"live/tests/test_a.py": PASSING, **rows("10 passed, 0 failed", 0)}


def ended(rt: Optional[str], files: Dict[str, str]) -> Tuple[int, str]:
    """The status and the last line of the test command, where `rt` is a shell's script and these files are there."""
    with tempfile.TemporaryDirectory() as folder:
        top, path = pathlib.Path(folder) / "top", pathlib.Path(folder) / "path"
        path.mkdir()
        if rt is not None:
            (path / "rt").write_text(f"#!/bin/sh\n{rt}\n")
            (path / "rt").chmod(0o755)
        for name, text in files.items():
            place = pathlib.Path(folder) / name if name == COMPILER else top / name
            place.parent.mkdir(parents=True, exist_ok=True)
            place.write_text(text)
            place.chmod(0o755)
        shutil.copyfile(ROOT / "test", top / "test")
        words = [sys.executable, str(top / "test")]
        ran = subprocess.run(words, env={**os.environ, "PATH": str(path)}, stdout=subprocess.PIPE, stderr=subprocess.STDOUT, text=True)
    return ran.returncode, ran.stdout.splitlines()[-1]


class Command(unittest.TestCase):
    def test_all_passes(self) -> None:
        self.assertEqual(ended('echo "5 passed, 0 failed"', WELL), (0, "30 passed, 0 failed"))

    def test_the_gate_fails(self) -> None:
        self.assertEqual(ended('echo "4 passed, 1 failed"; exit 1', WELL), (1, "29 passed, 1 failed"))

    def test_the_gate_ends_badly(self) -> None:
        self.assertEqual(ended('echo "5 passed, 0 failed"; exit 2', WELL), (1, "30 passed, 1 failed"))

    def test_the_gate_is_cut_off(self) -> None:
        self.assertEqual(ended('echo "5 passed, 0 failed"; echo more', WELL), (1, "25 passed, 1 failed"))

    def test_there_is_no_gate(self) -> None:
        self.assertEqual(ended(None, WELL), (1, "25 passed, 1 failed"))

    def test_a_test_of_a_tool_fails(self) -> None:
        files = {**WELL, "live/tests/test_a.py": MIXED}
        status, line = ended('echo "5 passed, 0 failed"', files)
        # Python 3.12.1 doesn't count a test that is skipped among those that ran.
        self.assertIn((status, line), [(1, f"{passed} passed, 1 failed, 1 skipped") for passed in (29, 30)])

    def test_a_tool_cannot_be_read(self) -> None:
        files = {**WELL, "live/tests/test_a.py": "import nothing_of_that_name\n"}
        self.assertEqual(ended('echo "5 passed, 0 failed"', files), (1, "29 passed, 1 failed"))

    def test_there_are_no_tests_of_tools(self) -> None:
        files = {**WELL, "live/tests/test_a.py": ""}
        self.assertEqual(ended('echo "5 passed, 0 failed"', files), (1, "29 passed, 1 failed"))

    def test_there_are_no_tools(self) -> None:
        files = rows("10 passed, 0 failed", 0)
        self.assertEqual(ended('echo "5 passed, 0 failed"', files), (0, "29 passed, 0 failed, 1 skipped"))

    def test_the_library_cannot_be_built(self) -> None:
        files = {**WELL, "scripts/build-c": "#!/bin/sh\nexit 1\n"}
        self.assertEqual(ended('echo "5 passed, 0 failed"', files), (1, "29 passed, 1 failed"))

    def test_there_is_no_compiler_of_c(self) -> None:
        files = {name: text for name, text in WELL.items() if name != COMPILER}
        self.assertEqual(ended('echo "5 passed, 0 failed"', files), (0, "29 passed, 0 failed, 1 skipped"))

    def test_a_run_without_memory_fails(self) -> None:
        files = {**WELL, "scripts/refuse-memory": "#!/bin/sh\necho 2 passed, 1 failed\nexit 1\n"}
        self.assertEqual(ended('echo "5 passed, 0 failed"', files), (1, "31 passed, 1 failed"))

    def test_a_row_fails(self) -> None:
        files = {**WELL, **rows("8 passed, 2 failed", 1)}
        self.assertEqual(ended('echo "5 passed, 0 failed"', files), (1, "26 passed, 4 failed"))

    def test_there_are_no_rows(self) -> None:
        files = {**WELL, **rows("0 passed, 0 failed", 0)}
        self.assertEqual(ended('echo "5 passed, 0 failed"', files), (1, "10 passed, 2 failed"))

    def test_one_compiler_built_nothing(self) -> None:
        files = {name: text for name, text in WELL.items() if name != "crates/lpt/out/lpt.by-rattle"}
        self.assertEqual(ended('echo "5 passed, 0 failed"', files), (0, "20 passed, 0 failed, 1 skipped"))

    def test_no_compiler_built_anything(self) -> None:
        files = {name: text for name, text in WELL.items() if name not in BUILT}
        self.assertEqual(ended('echo "5 passed, 0 failed"', files), (1, "10 passed, 1 failed, 1 skipped"))


if __name__ == "__main__":
    unittest.main()
