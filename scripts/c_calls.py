"""What a million events take through the C interface, beside an engine alone."""

from __future__ import annotations

import os
import pathlib
import shutil
import subprocess
import sys
import tempfile
from typing import List

ROOT = pathlib.Path(__file__).resolve().parent.parent
ARCHIVE = ROOT / "crates" / "lp_c" / "out" / "liblivepatch.a"


def built(source: pathlib.Path, folder: pathlib.Path) -> pathlib.Path:
    """A C program over the library, in this folder."""
    program = folder / source.stem
    words = ["gcc", "-std=c11", "-O2", "-I", str(ROOT / "include"), str(source), str(ARCHIVE), "-o", str(program)]
    subprocess.run(words, check=True)
    return program


def seconds(command: List[str], runs: int) -> float:
    """The processor time of a run, the least of some; a run that fails ends the script."""
    times = []
    for _ in range(runs):
        child = subprocess.Popen(command, stdin=subprocess.DEVNULL, stdout=subprocess.DEVNULL)
        _, status, used = os.wait4(child.pid, 0)
        child.returncode = os.waitstatus_to_exitcode(status)
        if child.returncode:
            sys.exit(f"{' '.join(command)}: status {child.returncode}")
        times.append(used.ru_utime + used.ru_stime)
    return min(times)


def print_c_calls(program: str, runs: int, events: int = 1_000_000) -> None:
    """Prints the processor time of an event by an engine alone, which is the word `core` of this program, and through C."""
    if not ARCHIVE.exists() or not shutil.which("gcc"):
        print("through C: gcc isn't there" if ARCHIVE.exists() else "through C: scripts/build-c has built no library")
        return
    with tempfile.TemporaryDirectory() as folder:
        through = built(ROOT / "tests" / "c" / "speed.c", pathlib.Path(folder))
        alone, called = seconds([program, "core"], runs), seconds([str(through)], runs)
    print(f"{'core':8} {alone / events * 1e9:8.1f} ns of processor time an event")
    print(f"{'C':8} {called / events * 1e9:8.1f} ns of processor time an event, {called / alone:.2f} times the engine's", flush=True)
