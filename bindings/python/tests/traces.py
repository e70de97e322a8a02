"""Trace texts, played through the C interface, and the worked rows of crates/lp_rows/data."""

from __future__ import annotations

import os
import re
from typing import Dict, Iterator, List, NamedTuple, Tuple

import livepatch

TOP = os.path.dirname(os.path.dirname(os.path.dirname(os.path.dirname(os.path.abspath(__file__)))))
DATA = os.path.join(TOP, "crates", "lp_rows", "data")


class Trace(NamedTuple):
    """What a trace text tells; `form` is 1, 2 or 3."""

    form: int
    symbols: List[str]
    patches: List[List[str]]
    boots: List[Tuple[int, str]]
    events: List[List[str]]


def trace_of(lines: List[str]) -> Trace:
    form = int(lines[0].split()[1])
    symbols: List[str] = []
    patches: Dict[int, List[str]] = {}
    boots: List[Tuple[int, str]] = []
    events: List[List[str]] = []
    for line in lines[1:]:
        words = line.split()
        if words[0] == "sym":
            symbols.append(words[1])
        elif words[0] == "patch":
            place = 1 if form == 1 else int(words[1])
            patches.setdefault(place, []).append(words[-1])
        elif words[0] == "boot":
            boots.append((int(words[1]), words[2]))
        else:
            events.append(words)
    return Trace(form, symbols, [patches[place] for place in sorted(patches)], boots, events)


def engine_of(trace: Trace, model: str) -> livepatch.Engine:
    return livepatch.Engine(model, trace.patches, trace.boots, trace.symbols)


def step(engine: livepatch.Engine, words: List[str]) -> livepatch.Reply:
    """Takes an event as a trace has it."""
    kind, rest = words[0], words[1:]
    if kind == "fork":
        kind = "thread" if rest[2] == "share" else "fork"
        return engine.step(kind, int(rest[0]), int(rest[1]))
    if kind == "call":
        return engine.step(kind, int(rest[0]), rest[1])
    return engine.step(kind, *map(int, rest))


def told(reply: livepatch.Reply, form: int) -> str:
    """The reply as the report of this form has it."""
    text = str(reply)
    if form == 1 and reply.what == "ran":
        text = text.replace(f"ran {reply.level}", f"ran {('old', 'new')[reply.level or 0]}")
    return text


def replies(trace: Trace, model: str) -> List[str]:
    with engine_of(trace, model) as engine:
        return [f"{number} {told(step(engine, words), trace.form)}" for number, words in enumerate(trace.events, 1)]


def rows() -> Iterator[Tuple[str, str, List[str], List[str]]]:
    """Each worked row of a run that comes to a report: its name, the model, the trace's lines, and the replies' lines."""
    for name in sorted(os.listdir(DATA)):
        if name.endswith(".rows"):
            with open(os.path.join(DATA, name), encoding="utf-8") as file:
                yield from rows_in(name, file.read())


def rows_in(file: str, text: str) -> Iterator[Tuple[str, str, List[str], List[str]]]:
    head: List[str] = []
    row: Dict[str, List[str]] = {}
    last = ""
    for line in [*text.split("\n"), "row end"]:
        word, _, rest = line.partition(" ")
        if not word or word == "#" or word.startswith("#"):
            continue
        if word == "head":
            head = (head if last == "head" else []) + rest.split(" / ")
        elif word == "row":
            yield from played(file, row)
            row = {"row": [rest], "in": list(head)}
        else:
            row.setdefault(word, []).extend(rest.split(" / "))
        last = word


def played(file: str, row: Dict[str, List[str]]) -> Iterator[Tuple[str, str, List[str], List[str]]]:
    """The row, if it is a run that comes to a report."""
    words = row.get("words", [""])[0].split()
    wanted = [line for line in row.get("out", []) if re.match(r"\d+ ", line)]
    if len(words) == 2 and words[0] == "run" and wanted:
        yield f"{file} {row['row'][0]}", words[1], row["in"], wanted
