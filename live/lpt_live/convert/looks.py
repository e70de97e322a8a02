"""Rules for the recorder's own records: the time, and what /proc showed."""
from typing import Any, Dict, List, Tuple

from .functions import Functions
from .record import Record
from .roster import Roster
from .stage import Rule, Stage

STATES = ('-1', '0', '1', 'none')         # none: there was no such task any more


def time(stage: Stage, place: int, record: Record) -> None:
    """The recorder's mark: the clock of the records tells no time."""
    stage.times.append((place, record.seconds))


def ask(stage: Stage, place: int, record: Record) -> None:
    """A look into /proc begins: what it shows was so at some moment from here on.  Within a walk's or opening's time, that
    begins at its point at the latest."""
    point = stage.within.get(id(record))
    stage.asked[record.about] = min(place, stage.place_of[id(point)]) if point else place


def told(stage: Stage, place: int, record: Record) -> None:
    """A look is over: what it showed was so at some moment up to here, or up to after the point in whose time it lies."""
    point = stage.within.get(id(record))
    for row in stage.reading.samples.get(record.about, ()):
        task = stage.reading.roster.present.get(row['t'])
        if task is None or task not in stage.frames:
            continue
        if row.get('stack') is not None:
            stage.stacks_shown.append((place, task, row['stack'], row.get('s', '?')))
        if row['ps'] not in STATES:
            continue
        position = (max(place, stage.place_of[id(point)]) + 1, 0) if point else stage.here(place)
        stage.note(position, 'shown', task, row['ps']).asked = stage.asked.get(record.about, 0)


def stacks_to_come(records: List[Record], samples: Dict[int, List[Dict[str, Any]]], roster: Roster,
                   functions: Functions) -> Dict[int, List[Tuple[int, List[str]]]]:
    """The patched frames of each task's stacks as /proc showed them, and at which record: some verdicts are told by them."""
    found: Dict[int, List[Tuple[int, List[str]]]] = {}
    for place, record in enumerate(records, 1):
        for row in samples.get(record.about, ()) if record.kind == 'told' else ():
            task = roster.present.get(row['t'])
            if task is not None and row.get('stack'):
                symbols = [function.symbol for function in functions.frames(row['stack'])]
                found.setdefault(task, []).append((place, symbols))
    return found


RULES: Dict[str, Rule] = {'time': time, 'ask': ask, 'told': told}
