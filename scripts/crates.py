"""The crates of the repository, as crates.txt lists them."""

import pathlib
import shutil
from typing import Dict, Iterable, List

ROOT = pathlib.Path(__file__).resolve().parent.parent

CRATES = ROOT / "crates"

# What a copy of a crate's sources has no need of.
LEFT_OUT = shutil.ignore_patterns("out", "must-fail", "more-edits")


def lines() -> Dict[str, str]:
    """The line of each crate, in the order of crates.txt: the lowest first."""
    listed = [line.partition("#")[0].strip() for line in (ROOT / "crates.txt").read_text().splitlines()]
    return {line.split()[0].rstrip(":"): line for line in listed if line}


def libraries() -> Dict[str, List[str]]:
    """The crates of the repository that each crate names."""
    known = lines()
    return {name: [word for word in line.partition(":")[2].split() if word in known] for name, line in known.items()}


def with_below(names: Iterable[str]) -> List[str]:
    """These crates and those that they stand on, and so on: the lowest first."""
    left = [*names]
    known, found = libraries(), {*left}
    while left:
        new = {*known[left.pop()]} - found
        found |= new
        left += new
    return [name for name in known if name in found]


def copy_with_below(names: Iterable[str], room: pathlib.Path) -> None:
    """Copies the sources of these crates and of those that they stand on into a folder, as a repository of their own."""
    known = lines()
    wanted = with_below(names)
    for name in wanted:
        shutil.copytree(CRATES / name, room / "crates" / name, ignore=LEFT_OUT)
    (room / ".git").mkdir()
    (room / "crates.txt").write_text("".join(f"{known[name]}\n" for name in wanted))
    shutil.copyfile(ROOT / "HANDLES", room / "HANDLES")
