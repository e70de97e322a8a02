"""Reads what pages say of the code: the links between pages, the signatures of calls, and the clauses of promises."""

import pathlib
import re
from functools import lru_cache
from typing import Iterator, List, NamedTuple, Tuple

ROOT = pathlib.Path(__file__).resolve().parent.parent

TARGET = re.compile(r"\]\(([^)\s]+)\)")
BLOCK = re.compile(r"^```rust\n(.*?)^```", re.M | re.S)
ROW = re.compile(r"^\| .* \| (`.*`) \| (.*) \|$", re.M)
EXPORT = re.compile(r"^\| `(lp_\w+)` \| .* \| (.*) \|$", re.M)
PATH = re.compile(r"`(\w+)(?:::\w+)*::(\w+)`")
LAW = re.compile(r"^\| `(?:\w+::)?(\w+)` \|", re.M)
FUNCTION = re.compile(r"^ *(?:pub(?:\(crate\))? )?(?:unsafe )?(?:extern \"C\" )?fn (\w+)", re.M)


class Promise(NamedTuple):
    """A function, by its crate or type and its name, and a clause of its contract; an empty name is any clause."""

    owner: str
    function: str
    clause: str


def plain(text: str) -> str:
    """A text with each run of blanks as one, and none inside brackets."""
    return re.sub(r",? \)", ")", re.sub(r"\( ", "(", " ".join(text.split())))


def anchors(page: pathlib.Path) -> List[str]:
    """The names under which the headings of a page can be linked."""
    headings = re.findall(r"^#+ (.*)$", page.read_text(), re.M)
    return [re.sub(r"[^\w\- ]", "", heading.lower()).replace(" ", "-") for heading in headings]


def links(page: pathlib.Path) -> Iterator[Tuple[pathlib.Path, str]]:
    """The files of this repository that a page links, each with the anchor in it, or none."""
    for target in TARGET.findall(page.read_text()):
        name, _, anchor = target.partition("#")
        if "://" not in target:
            yield (page.parent / name).resolve() if name else page, anchor


@lru_cache(maxsize=None)
def files() -> Tuple[Tuple[str, str], ...]:
    """The sources of all crates, each with its crate."""
    return tuple((path.relative_to(ROOT / "crates").parts[0], path.read_text()) for path in sorted((ROOT / "crates").glob("*/src/**/*.rt")))


def code(owner: str = "") -> str:
    """The sources of a crate, or the files in which a type has an impl, or all."""
    if not owner or owner in {crate for crate, _ in files()}:
        return "\n".join(text for crate, text in files() if crate == owner or not owner)
    return "\n".join(text for _, text in files() if re.search(rf"^impl\b[^{{]*\b{owner}\b", text, re.M))


def signatures(page: pathlib.Path) -> List[str]:
    """The signatures that stand in a page's blocks of Rust."""
    lines = "\n".join(BLOCK.findall(page.read_text())).splitlines()
    return [plain(line) for line in lines if line.startswith("fn ")]


def promises(page: pathlib.Path) -> Iterator[Promise]:
    """The functions and clauses in the rows of a page's tables whose last two cells are these."""
    for functions, clauses in ROW.findall(page.read_text()):
        named = re.findall(r"`(?:(\w+)::)?(?:\w+::)*(\w+)`", functions)
        for owner, function in named:
            for clause in re.findall(r"`(\w+)`", clauses) or [""]:
                yield Promise(owner, function, clause)


def paths(page: pathlib.Path) -> List[Tuple[str, str]]:
    """What a page names by a path: the crate or type that it begins with, and the name at its end."""
    return PATH.findall(page.read_text())


def laws(page: pathlib.Path) -> List[str]:
    """The laws in the first cells of a page's table."""
    return LAW.findall(page.read_text())


def exports(page: pathlib.Path) -> Iterator[Promise]:
    """The calls of the library for C and their clauses, in the rows of a page's table whose first and last cell are these."""
    for function, clauses in EXPORT.findall(page.read_text()):
        for clause in re.findall(r"`(\w+)`", clauses) or [""]:
            yield Promise("lp_c", function, clause)


def contracts(owner: str, function: str) -> List[str]:
    """The contracts of the functions of this name, in a crate or at a type."""
    text = code(owner)
    starts = [(found.start(), found.group(1)) for found in FUNCTION.finditer(text)]
    ends = [start for start, _ in starts[1:]] + [len(text)]
    return [text[start:end] for (start, name), end in zip(starts, ends) if name == function]


def has_clause(contract: str, clause: str) -> bool:
    return bool(re.search(rf"^\s*ensures {clause}\s*\{{" if clause else r"^\s*ensures \{", contract, re.M))
