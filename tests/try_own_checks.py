#!/usr/bin/env python3
"""Compares a program with the plain definition of a task's own check (own_checks.py), on random traces under each model.

usage: tests/try_own_checks.py [--cmd PROGRAM] [--traces N] [--seed S]

Without a PROGRAM it is the one that the gate or ./prove built; N is 200, and the seeds count up from S, which is 1. Prints each
difference; the last line is 'N passed, M failed', a trace under a model each, and the status is 1 where M isn't 0.
"""

import argparse
import pathlib
import shlex
import subprocess
import sys
from typing import Iterator, List

sys.dont_write_bytecode = True

from own_check_certificates import claims, faults, without
from own_check_traces import random_trace
from own_checks import MODELS, Definition, Outcome

BUILT = pathlib.Path(__file__).resolve().parent.parent / "crates" / "lpt" / "out" / "lpt"
MOST_SECONDS = 120


def run(program: str, words: List[str], text: str) -> List[str]:
    """The lines that a program answers on a text."""
    command = [*shlex.split(program), *words]
    done = subprocess.run(command, input=text, capture_output=True, text=True, check=False, timeout=MOST_SECONDS)
    if done.returncode:
        return [f"status {done.returncode}: {done.stderr.strip()}"]
    return done.stdout.splitlines()


def differences(lines: List[str], outcome: Outcome) -> Iterator[str]:
    """In what a report isn't as the definition says."""
    told, certificates = without(lines)
    wanted = outcome.lines()
    if told != wanted:
        pairs = zip(wanted + [""], told + [""])
        number, (want, gave) = next(((n, pair) for n, pair in enumerate(pairs, 1) if pair[0] != pair[1]), (0, ("", "")))
        yield f"line {number} is {gave!r}, and not {want!r}"
        return
    for leg in outcome.legs:
        found = certificates.get(leg.opened, [])
        if [one.claim for one in found] != claims(leg):
            yield f"leg {leg.opened} has the claims {[' '.join(one.claim) for one in found]}"
        for one in found:
            yield from faults(outcome, one)


def main() -> int:
    parser = argparse.ArgumentParser(description=__doc__, formatter_class=argparse.RawDescriptionHelpFormatter)
    parser.add_argument("--cmd", default=str(BUILT), metavar="PROGRAM")
    parser.add_argument("--traces", type=int, default=200, metavar="N")
    parser.add_argument("--seed", type=int, default=1, metavar="S")
    chosen = parser.parse_args()
    passed = failed = 0
    for seed in range(chosen.seed, chosen.seed + chosen.traces):
        trace = random_trace(seed)
        for model in MODELS:
            found = list(differences(run(chosen.cmd, ["run", model], trace.text()), Outcome(trace, model, Definition())))
            for difference in found:
                print(f"seed {seed}, {model}: {difference}", flush=True)
            passed, failed = passed + (not found), failed + bool(found)
    print(f"{passed} passed, {failed} failed")
    return 1 if failed else 0


if __name__ == "__main__":
    sys.exit(main())
