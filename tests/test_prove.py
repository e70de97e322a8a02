"""./prove, with another gate in place of the kit's."""

import os
import pathlib
import shutil
import subprocess
import tempfile
import unittest
from typing import Tuple

ROOT = pathlib.Path(__file__).resolve().parent.parent

CRATES = "lp_low:\nlpt: lp_low\nlp_high: lpt lp_low\n"

# A gate that builds a program which names the crates that it was built from.
BUILDS = 'echo "rt: lp_low is kept: all"; mkdir -p crates/lpt/out; ls crates >crates/lpt/out/lpt; chmod +x crates/lpt/out/lpt'

REFUSES = 'echo "lp_low NOT PROVED"; exit 1'


def proved(folder: pathlib.Path, script: str) -> Tuple[int, str]:
    """Runs ./prove in a checkout of three crates, with a shell's script as the gate; its status, and what it says."""
    (folder / "bin").mkdir()
    (folder / "bin" / "rt").write_text(f"#!/bin/sh\n{script}\n")
    (folder / "bin" / "rt").chmod(0o755)
    (folder / "scripts").mkdir()
    for name in ("prove", "scripts/crates.py"):
        shutil.copy(ROOT / name, folder / name)
    (folder / "crates.txt").write_text(CRATES)
    (folder / "HANDLES").write_text("Handles allowed: none.\n")
    for name in ("lp_low", "lpt", "lp_high"):
        (folder / "crates" / name / "src").mkdir(parents=True)
    out = folder / "crates" / "lpt" / "out"
    out.mkdir()
    (out / "lpt").write_text("an older program")
    path = f"{folder / 'bin'}{os.pathsep}{os.environ['PATH']}"
    ended = subprocess.run([str(folder / "prove")], env={**os.environ, "PATH": path}, stderr=subprocess.PIPE, text=True)
    return ended.returncode, ended.stderr


class Prove(unittest.TestCase):
    def test_it_builds_from_the_crates_below(self) -> None:
        with tempfile.TemporaryDirectory() as name:
            folder = pathlib.Path(name)
            source = folder / "crates" / "lpt" / "src"
            status, said = proved(folder, BUILDS)
            self.assertEqual(status, 0, said)
            self.assertIn("1 of 2 crates, lp_low last", said)
            program = folder / "crates" / "lpt" / "out" / "lpt"
            self.assertEqual(program.read_text(), "lp_low\nlpt\n")
            self.assertTrue(os.access(program, os.X_OK))
            self.assertGreaterEqual(program.stat().st_mtime_ns, source.stat().st_mtime_ns)

    def test_a_crate_is_not_proved(self) -> None:
        with tempfile.TemporaryDirectory() as name:
            folder = pathlib.Path(name)
            status, said = proved(folder, REFUSES)
            self.assertEqual(status, 1)
            self.assertIn("lp_low NOT PROVED", said)
            self.assertFalse((folder / "crates" / "lpt" / "out" / "lpt").exists(), "no older program is taken for a proved one")


if __name__ == "__main__":
    unittest.main()
