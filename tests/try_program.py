#!/usr/bin/env python3
"""Tries a program on worked rows: what it writes to both streams, its status, and that it reads nothing where it needs nothing.

usage: tests/try_program.py [--cmd PROGRAM] [FILE..]

Without a FILE these are the rows of crates/lp_rows/data and of tests/program; without a PROGRAM it is the one that the
gate or ./prove built. Prints each difference; the last line is 'N passed, M failed', and the status is 1 where M isn't 0.
"""

import argparse
import contextlib
import os
import pathlib
import shutil
import subprocess
import sys
import tempfile
from typing import Iterator, List

sys.dont_write_bytecode = True

from process import MOST_SECONDS, Ended, play
from rows import NoRow, Row, rows_of

ROOT = pathlib.Path(__file__).resolve().parent.parent

BUILT = ROOT / "crates" / "lpt" / "out" / "lpt"

FOLDERS = (ROOT / "crates" / "lp_rows" / "data", ROOT / "tests" / "program")

USAGE = 2


def spoken(text: bytes) -> str:
    """A text as it can stand in a line, cut where it is long."""
    return ascii(text.decode(errors="backslashreplace"))[:200]


def differing_line(wanted: bytes, given: bytes) -> str:
    """The first line in which two texts differ."""
    pairs = zip(wanted.splitlines(True) + [b""], given.splitlines(True) + [b""])
    number, (want, gave) = next((number, pair) for number, pair in enumerate(pairs, 1) if pair[0] != pair[1])
    return f"line {number} is {spoken(gave)}, and not {spoken(want)}"


def differences(row: Row, ended: Ended) -> Iterator[str]:
    """In what a process ended otherwise than its row wants."""
    status = row.wanted_status()
    if ended.status < 0:
        yield f"ended by signal {-ended.status}, perhaps as {MOST_SECONDS} seconds were over"
    elif ended.status != status:
        yield f"status {ended.status}, and not {status}"
    if ended.output is not None and ended.output != row.output:
        yield f"standard output: {differing_line(bytes(row.output), ended.output)}"
    if ended.error is not None and ended.error != row.error:
        yield f"standard error: {spoken(ended.error)}, and not {spoken(row.error)}"
    if status == USAGE and ended.taken:
        yield f"{ended.taken} bytes of its input were read"


def try_row(program: str, row: Row) -> bool:
    """Whether a program ends at each of a row's lines of words as it has to; else says where it doesn't."""
    is_right = True
    for words in row.commands:
        for difference in differences(row, play(program, words, row)):
            print(f"{row.file}, {row.name}: {spoken(b' '.join(words))}: {difference}", flush=True)
            is_right = False
    return is_right


@contextlib.contextmanager
def reachable(program: pathlib.Path) -> Iterator[str]:
    """A copy of a program that any user can start, wherever the program lies."""
    with tempfile.TemporaryDirectory(prefix="lp-rows-") as folder:
        os.chmod(folder, 0o711)
        copy = pathlib.Path(folder) / "lpt"
        shutil.copyfile(program, copy)
        copy.chmod(0o755)
        yield str(copy)


def all_rows(files: List[pathlib.Path]) -> List[Row]:
    paths = files or [path for folder in FOLDERS for path in sorted(folder.glob("*.rows"))]
    return [row for path in paths for row in rows_of(path)]


def main() -> int:
    parser = argparse.ArgumentParser(description=__doc__, formatter_class=argparse.RawDescriptionHelpFormatter)
    parser.add_argument("--cmd", type=pathlib.Path, default=BUILT, metavar="PROGRAM")
    parser.add_argument("files", nargs="*", type=pathlib.Path, metavar="FILE")
    chosen = parser.parse_args()
    try:
        rows = all_rows(chosen.files)
        with reachable(chosen.cmd) as program:
            failed = [row.name for row in rows if not try_row(program, row)]
    except (NoRow, OSError, subprocess.SubprocessError) as error:
        print(f"try_program: {error}", file=sys.stderr)
        return 2
    print(f"{len(rows) - len(failed)} passed, {len(failed)} failed")
    return 1 if failed else 0


if __name__ == "__main__":
    sys.exit(main())
