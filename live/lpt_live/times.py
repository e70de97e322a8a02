"""When the events of a recording were.

The recorder tells the time some ten times a second, if it gets to it: `times` of BASE.names has after which event, and
the seconds since the epoch.  Between two of them it is estimated.
"""
import bisect
from typing import List, Optional, Sequence

from .names import Names


class Times:
    """The times of events; those of the prologue have none."""

    def __init__(self, names: Names) -> None:
        self.prologue = names.prologue
        self.marks: List[int] = [event for event, _ in names['times']]
        self.seconds: List[float] = [seconds for _, seconds in names['times']]

    def when(self, event: int) -> Optional[float]:
        """The seconds of an event since the epoch; None before the recording."""
        if event <= self.prologue or not self.marks:
            return None
        at = bisect.bisect_left(self.marks, event)
        if at in (0, len(self.marks)):
            return self.seconds[min(at, len(self.seconds) - 1)]
        before, after = self.marks[at - 1], self.marks[at]
        return self.seconds[at - 1] + (self.seconds[at] - self.seconds[at - 1]) * (event - before) / (after - before)


def renumbered(names: Names, kept: Sequence[int], prologue: int) -> List[List[float]]:
    """The `times` of a trace of which these events were kept: of each the time that it has in the whole one.

    Events that are left out lie unevenly between two marks, so an estimate by the new numbers would be another.
    """
    times = Times(names)
    rows: List[List[float]] = []
    for number, event in enumerate(kept, 1):
        seconds = times.when(event)
        if number > prologue and seconds is not None:
            rows.append([number, round(seconds, 3)])
    ends = [[bisect.bisect_right(kept, event), seconds] for event, seconds in names['times']]
    return sorted(ends[:1] + rows + ends[-1:])
