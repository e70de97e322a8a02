"""The picture of a transition with the names of its tasks; of a recording over the time, of a plain trace over the events."""
import time
from typing import List, Optional, Tuple

from ..picture import Scale, Words, draw
from .case import Case, Transition
from .clock import TOLERANCE
from .naming import Naming, RecordedNaming
from .timeline import chosen

MOST = 40
STEPS = (0.1, 0.2, 0.5, 1, 2, 5, 10, 20, 30, 60, 120, 300, 600, 1200, 1800, 3600, 7200, 21600, 86400)


def drawing(case: Case, naming: Naming, transition: Transition) -> str:
    """The picture as SVG."""
    everybody = case.numbers()
    tasks = chosen(case, transition)
    if not tasks or (len(everybody) <= MOST and not case.names):
        tasks = everybody
    words = Words(naming.short, naming.who, naming.moment, naming.at, naming.level)
    first, last, scale = extent(naming, case, transition)
    return draw(case.story(), (first, last), tasks[:MOST], words, scale)


def extent(naming: Naming, case: Case, transition: Transition) -> Tuple[int, int, Optional[Scale]]:
    """From which event to which, and how they lie on the sheet: from a little before the opening to a little after the end."""
    first, last = max(case.prologue + 1, transition.opened), transition.last
    if not isinstance(naming, RecordedNaming) or not naming.clock.seconds:
        more = max(2, (last - first) // 12)
        return max(1, first - more), min(len(case.events), last + more), None
    clock = naming.clock
    begin, end = clock.when(first) or clock.seconds[0], clock.when(last) or clock.seconds[-1]
    room = max(0.3, (end - begin) / 12)
    begin, end = max(begin - room, clock.seconds[0]), min(end + room, clock.seconds[-1])
    end = max(end, begin + 0.1)

    def at(event: int) -> float:
        seconds = clock.when(event)
        return 0.0 if seconds is None else (seconds - begin) / (end - begin)
    return clock.last_before(begin - TOLERANCE), clock.last_before(end), Scale(at, marks(begin, end), 'time')


def marks(begin: float, end: float) -> List[Tuple[float, str]]:
    """The times on the axis, at most a dozen."""
    step = float(next((step for step in STEPS if (end - begin) / step <= 12), STEPS[-1]))
    got: List[Tuple[float, str]] = []
    count = int(begin / step) + 1
    while count * step <= end:
        seconds = count * step
        text = time.strftime('%H:%M:%S', time.localtime(round(seconds, 1)))
        got.append(((seconds - begin) / (end - begin), text if step >= 1 else f'{text}.{round(seconds * 10) % 10}'))
        count += 1
    return got
