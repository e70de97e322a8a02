"""Openings and completions.

The engine completes a transition at once, at the event after which nobody is off its target.  The kernel notices it in a
walk, so later; until then a second patch gets EBUSY, and a reversal is accepted (`late`).  It must never be earlier.
"""
from typing import Dict, List

from ..expectation import KernelLeg
from ..report import Leg
from .case import Case
from .differences import COMPLETION, OTHER, TOO_LATE, Difference


def completions(case: Case) -> List[Difference]:
    """What differs of the legs themselves."""
    kernel = case.kernel_legs()
    engine = {leg.opened: leg for leg in case.report.legs}
    found = []
    for opened in case.openings:
        if opened not in kernel or opened not in engine or kernel[opened].side != engine[opened].target:
            found.append(opening(case, opened, kernel, engine))
        else:
            found += completion(case, kernel[opened], engine[opened])
    return found


def opening(case: Case, opened: int, kernel: Dict[int, KernelLeg], engine: Dict[int, Leg]) -> Difference:
    """A leg that one of the two alone has, or has to another target."""
    sides = [f'to {kernel[opened].side} for the kernel' if opened in kernel else 'none for the kernel',
             f'to {engine[opened].target} for the engine' if opened in engine else 'none for the engine']
    return Difference(OTHER, opened, case.event(opened).line, 0, f'the transition of {case.place(opened)}: {", ".join(sides)}')


def completion(case: Case, kernel: KernelLeg, engine: Leg) -> List[Difference]:
    """The completion of a leg that both have."""
    last = max([leg for leg in case.openings if leg > kernel.opened][:1] or [len(case.trace.events) + 1]) - 1
    line = case.event(kernel.complete or kernel.opened).line
    if kernel.complete is not None:
        if engine.complete is not None and engine.complete <= kernel.complete:
            return []
        waiting = f'{engine.waiting} task{"s" if engine.waiting != 1 else ""} waiting'
        then = f'complete at {case.place(engine.complete)}' if engine.complete else f'not complete, {waiting}'
        return [Difference(COMPLETION, kernel.complete, line, 0,
                           f'the transition of {case.place(kernel.opened)} was completed at {case.place(kernel.complete)}; '
                           f'for the engine it is {then}', 1, None, engine.complete)]
    if engine.complete is None or turned_late(case, last + 1) or not case.walks(engine.complete, last):
        return []                   # not complete for both; or no walk came that could have noticed it
    return [Difference(TOO_LATE, engine.complete, case.event(engine.complete).line, 0,
                       f'the transition of {case.place(kernel.opened)} is complete at {case.place(engine.complete)}; '
                       'the kernel\'s walks since haven\'t completed it', 1, None, engine.complete)]


def turned_late(case: Case, opened: int) -> bool:
    """Whether the leg that this event opens is a reversal of one that was complete but for the walk."""
    return any(decision.word == 'late' and decision.event == opened for decision in case.decisions.decisions)
