"""That the lines of docs/program.md for a shell tell of a trace what they say."""

import pathlib
import re
import subprocess
import sys
import tempfile
import unittest
from typing import List

sys.dont_write_bytecode = True

from rows import rows_of
from try_program import BUILT, ROOT

# Its second transition is complete, and in its third two groups wait.
ROWS, ROW = ROOT / "crates" / "lp_rows" / "data" / "legs.rows", "reasons_leg_by_leg"


def lines() -> List[str]:
    """The lines of the page."""
    page = (ROOT / "docs" / "program.md").read_text()
    section = page.split("\n## From a shell\n")[1].split("\n## ")[0]
    return re.findall(r"^    (.+)$", section, re.MULTILINE)


class Shell(unittest.TestCase):
    """The page's lines, one after the other in a folder with a trace and its report."""

    def setUp(self) -> None:
        room = tempfile.TemporaryDirectory()
        self.addCleanup(room.cleanup)
        self.folder = pathlib.Path(room.name)
        row = next(row for row in rows_of(ROWS) if row.name == ROW)
        (self.folder / "trace").write_bytes(bytes(row.input))
        self.report = bytes(row.output).decode()
        self.run_line, *self.others, self.check_line = lines()

    def said(self, line: str) -> str:
        return subprocess.run(["sh", "-c", line], cwd=self.folder, stdout=subprocess.PIPE, text=True, check=True).stdout

    def test_what_they_tell(self) -> None:
        (self.folder / "report").write_text(self.report)
        keep, stuck, who, certificate = self.others
        self.said(keep)
        self.assertEqual(self.said(stuck), "leg 13 new waiting 2\n")
        self.assertEqual(self.said(who), "1\n2\n")
        self.said(certificate)
        self.assertEqual((self.folder / "certificate").read_text(), "waiting 13 1 15\nbusy 1 1 14\nbusy 1 1 15\n")

    def test_of_a_report_without_a_transition_they_tell_nothing(self) -> None:
        (self.folder / "report").write_text("lpreport 1\nmodel hybrid\n1 done\nstays 0 mixed 0\n")
        keep, stuck, who, _ = self.others
        self.assertEqual((self.said(keep), self.said(stuck), self.said(who)), ("", "", ""))

    @unittest.skipUnless(BUILT.is_file(), "the program isn't built")
    def test_with_the_program(self) -> None:
        (self.folder / "lpt").symlink_to(BUILT)
        self.said(self.run_line)
        self.assertEqual((self.folder / "report").read_text(), self.report)
        for line in self.others:
            self.said(line)
        self.assertEqual(self.said(self.check_line), "accepted\n")


if __name__ == "__main__":
    unittest.main()
