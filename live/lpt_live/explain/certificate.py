"""A certificate with its trace, as `lpt check MODEL` accepts it."""
from typing import Optional

from .. import lpt, report
from ..errors import NoEngine, Refused
from ..report import Certificate
from .case import Case, Transition
from .naming import Naming


def certified(case: Case, naming: Naming, transition: Transition, word: str, at: Optional[int]) -> str:
    """The trace and the certificate that a group waits at the moment; without one, at the last at which it did.

    It is tried with `lpt check` before it is given out, so that nobody carries off one that isn't accepted.
    """
    group = naming.task_of(word)
    moment = last_waiting(case, transition, group) if at is None else at
    found = None if moment is None else of(case, moment, group, transition.opened)
    if found is None:
        when = 'at any moment of this transition' if at is None else naming.at(at)
        raise Refused(f'{naming.who(group)} doesn\'t wait {when}, so there is no certificate of it')
    text = case.text + '\n'.join(['lpcert 1', *found.lines()]) + '\n'
    answer = lpt.answer(['check', case.model], text)
    if answer.status or answer.output != 'accepted\n':
        raise NoEngine(f'lpt check {case.model} doesn\'t accept the certificate: {(answer.output or answer.fault).strip()}')
    return text


def of(case: Case, moment: int, group: int, opened: int) -> Optional[Certificate]:
    """The certificate of a group that waits after an event, in the transition that this event opened."""
    legs = report.run(case.model, case.trace.cut(moment)).legs
    if not legs or legs[-1].opened != opened or legs[-1].complete:
        return None
    return next((one for one in legs[-1].certificates if one.group == group), None)


def last_waiting(case: Case, transition: Transition, group: int) -> Optional[int]:
    """The last event after which the group may still wait: the one before it switches or has no live task, or the leg's last."""
    for number, groups in case.report.switched().items():
        if transition.opened < number <= transition.end and group in groups:
            return number - 1
    members = {task for task, its_group in case.groups().items() if its_group == group}
    live = members & set(case.trace.boots)
    for event in case.events[:transition.end]:
        if event.number in case.refused:
            continue
        live |= members & {event.child}
        if event.word == 'die' and event.task in live:
            live.discard(event.task)
            if not live and event.number > transition.opened:
                return event.number - 1
    return transition.end if live and not transition.leg.complete else None
