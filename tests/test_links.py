"""That the links of docs/ lead to the lines at which their definitions stand."""

import pathlib
import subprocess
import sys
import unittest

ROOT = pathlib.Path(__file__).resolve().parent.parent


class Links(unittest.TestCase):
    def test_lines(self) -> None:
        ended = subprocess.run([sys.executable, str(ROOT / "scripts" / "place-lines"), "--check"], capture_output=True, text=True)
        self.assertEqual(ended.returncode, 0, ended.stderr or "a line number is out of date: scripts/place-lines brings it up to date")


if __name__ == "__main__":
    unittest.main()
