"""The C programs of tests/c and examples/, built and run."""

from __future__ import annotations

import os
import shutil
import subprocess
import sys
import tempfile
import unittest
from importlib.machinery import SourceFileLoader
from importlib.util import module_from_spec, spec_from_file_location
from typing import List

TOP = os.path.dirname(os.path.dirname(os.path.dirname(os.path.dirname(os.path.abspath(__file__)))))
ARCHIVE = os.path.join(TOP, "crates", "lp_c", "out", "liblivepatch.a")
EXAMPLE = """1 done
2 ran
3 done
4 done
5 done
  task 1 waits for the frame of event 2
6 done
  task 1 waits for the frame of event 2
7 done
8 switched, complete
"""
PYTHON_EXAMPLE = """enter 1: done
call 1 a: ran 0
sleep 1: done
enable: done
walk: done
  waits for the frame of event 2
wake 1: done
  waits for the frame of event 2
ret 1: done
exit 1: over 1 complete
"""


@unittest.skipUnless(shutil.which("gcc"), "gcc isn't there")
@unittest.skipUnless(os.path.exists(ARCHIVE), "scripts/build-c has built no library")
class Programs(unittest.TestCase):
    def setUp(self) -> None:
        folder = tempfile.TemporaryDirectory()
        self.addCleanup(folder.cleanup)
        self.folder = folder.name

    def built(self, source: str, *flags: str) -> str:
        program = os.path.join(self.folder, os.path.basename(source)[:-2])
        words = ["gcc", "-std=c11", "-O2", "-Wall", "-Wextra", "-Werror", "-I", os.path.join(TOP, "include")]
        subprocess.run([*words, os.path.join(TOP, source), ARCHIVE, "-o", program, *flags], check=True)
        return program

    def said(self, words: List[str]) -> str:
        return subprocess.run(words, check=True, capture_output=True, text=True).stdout

    def test_calls(self) -> None:
        self.assertEqual(self.said([self.built("tests/c/calls.c")]), "ok\n")

    def test_each_allocation_refused(self) -> None:
        program = self.built("tests/c/failing.c", "-Wl,--wrap=malloc,--wrap=realloc")
        self.assertRegex(self.said([program]), r"^\d+ allocations\nok\n$")

    def test_speed(self) -> None:
        """It ends well: each of its events is accepted."""
        self.assertEqual(self.said([self.built("tests/c/speed.c")]), "1000000 events\n")

    def test_example(self) -> None:
        self.assertEqual(self.said([self.built("examples/livepatch.c")]), EXAMPLE)

    def test_python_example(self) -> None:
        self.assertEqual(self.said([sys.executable, os.path.join(TOP, "examples", "livepatch_engine.py")]), PYTHON_EXAMPLE)

    def test_header(self) -> None:
        """The header and the crate agree, and each line of the header that doesn't is found."""
        loader = SourceFileLoader("check_header", os.path.join(TOP, "scripts", "check-header"))
        spec = spec_from_file_location("check_header", loader.path, loader=loader)
        assert spec is not None
        checker = module_from_spec(spec)
        loader.exec_module(checker)
        header, exports = map(checker.read, ("include/livepatch.h", checker.EXPORTS))
        codes = "".join(map(checker.read, checker.CODES))
        self.assertEqual(checker.differences(header, exports, codes), [])
        for old, new in (
            ("LP_JOURNAL_FULL = 14", "LP_JOURNAL_FULL = 15"),
            ("LP_SLEEP = 2", "LP_SLEEP = 3"),
            ("LP_IMMEDIATE = 3", "LP_IMMEDIATE = 5"),
            ("    uint16_t other;\n", "    uint32_t other;\n"),
            ("size_t place, uint32_t *group", "uint32_t place, uint32_t *group"),
            ("void lp_free(lp_slot *slot);", ""),
        ):
            self.assertEqual(header.count(old), 1)
            self.assertEqual(len(checker.differences(header.replace(old, new), exports, codes)), 1)


if __name__ == "__main__":
    unittest.main()
