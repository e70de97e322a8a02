"""Who would hold up the way back, if a transition were turned round."""
from typing import List

from .. import report
from ..report import Certificate
from .case import MOST_EVENTS, Case
from .naming import Naming, plural

NAMED = 8


def what_if(case: Case, naming: Naming, at: int) -> str:
    """What `reverse` and a walk at an event would come to."""
    begin = f'WHAT IF it were turned round {naming.at(at)}: '
    if at + 2 > MOST_EVENTS:
        return begin + 'not told, since the trace has no room for two more events'
    told = report.run(case.model, case.trace.cut(at, ['reverse', 'walk']))
    if told.reply(at + 1).word == 'refused':
        return begin + 'that is refused, there is no transition under way any more'
    leg = told.legs[-1]
    if leg.complete == at + 1:
        return begin + 'complete at once'
    doubt = '' if case.knows_scheduling else ', as far as is known: neither calls nor scheduling were recorded'
    return begin + ('complete at the first walk' if leg.complete else holders(case, naming, leg.certificates)) + doubt


def holders(case: Case, naming: Naming, certificates: List[Certificate]) -> str:
    """Who wouldn't be over after the walk: those in functions of the patch, then those on a CPU."""
    newest = {one.group: one.reasons[-1] for one in certificates if one.reasons}
    held = [f'{naming.who(group)} in {case.events[reason.serial - 1].words[2]}' for group, reason in newest.items()
            if reason.word == 'hold']
    busy = [naming.who(one.group) for one in certificates if one.group not in newest or newest[one.group].word != 'hold']
    if case.knows_scheduling:
        return (f'after one walk {plural(len(certificates), case.unit)} would hold up the way back: '
                + some([*held, *(f'{who} on a CPU' for who in busy)]))
    # Without the scheduler's records nobody knows who is on a CPU between two walks: most of these aren't by then.
    parts = [f'{plural(len(held), case.unit)} would hold up the way back: {some(held)}'] if held else []
    parts += [f'up to {plural(len(busy), case.unit)} that {"was" if len(busy) == 1 else "were"} last seen on a CPU'] if busy else []
    return 'after one walk ' + ('; and ' if held else '').join(parts) + ('' if held else ' would hold up the way back')


def some(names: List[str]) -> str:
    """The first of them."""
    return ', '.join(names[:NAMED]) + (' ..' if len(names) > NAMED else '')
