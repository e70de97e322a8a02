"""All differences between the kernel and the engine, in the order of their events."""
from typing import Dict, List, Set, Tuple

from ..expectation import Decision
from ..trace import Event
from .case import Case
from .completions import completions
from .differences import OTHER, TOO_EARLY, TOO_LATE, VERSION, Difference
from .engine import Engine, Keeps, answer
from .samples import samples


def differences(case: Case) -> List[Difference]:
    """What differs."""
    found = switches(case) + versions(case) + controls(case) + births(case) + completions(case) + samples(case)
    return sorted(found, key=lambda difference: (difference.event, difference.task))


def switches(case: Case) -> List[Difference]:
    """Switches at other events, and refusals of tasks that the engine has switched."""
    kernel = {(decision.event, decision.task) for decision in case.decisions.decisions if decision.word == 'over'}
    kernel_only, engine_only = sorted(kernel - case.switched), sorted(case.switched - kernel)
    queries: Dict[int, List[int]] = {}
    for event, task in kernel_only:
        queries.setdefault(event, []).append(task)
    why = answer(case, queries) if queries else {}
    stays = late_refusals(case)
    found: List[Difference] = []
    paired: Set[Tuple[int, int]] = set()
    engine_of = {(case.leg(event), task): event for event, task in engine_only}
    for event, task in kernel_only:
        other = engine_of.get((case.leg(event), task), 0)
        if other and (other, task) not in paired:
            paired.add((other, task))
            if other < event:
                found.append(late(case, task, other, event, stays))
                continue
        found.append(early(case, task, event, other, why[event, task]))
    for event, task in engine_only:
        if (event, task) not in paired:
            found.append(late(case, task, event, 0, stays))
    return found + [refused_twice(case, decision) for decisions in stays.values() for decision in decisions]


def early(case: Case, task: int, event: int, other: int, keeps: Keeps) -> Difference:
    """The kernel switched a task that the engine keeps."""
    then = f'the engine switches it at {case.place(other)}' if other else 'the engine doesn\'t switch it in this transition'
    return Difference(TOO_EARLY, event, case.event(event).line, task,
                      f'{case.who(task)} was switched at {case.place(event)} though {keeps.text}; {then}',
                      2 if other else 1, keeps.frame, other or None)


def late(case: Case, task: int, event: int, other: int, stays: Dict[Tuple[int, int], List[Decision]]) -> Difference:
    """The engine switches a task that the kernel keeps, for a while or for good.  Refusals meanwhile are part of it."""
    refusals = stays.pop((case.leg(event), task), [])
    then = f'the kernel did at {case.place(other)}' if other else 'the kernel didn\'t in this transition'
    text = f'{case.who(task)} could be switched at {case.place(event)}; {then}'
    if refusals:
        reasons = ', '.join(sorted({decision.rest[0] for decision in refusals}))
        text += f'; it refused it meanwhile ({reasons}), first at {case.place(refusals[0].event)}'
    return Difference(TOO_LATE, event, case.event(event).line, task, text,
                      (2 if other else 1) + len(refusals), None, event)


def late_refusals(case: Case) -> Dict[Tuple[int, int], List[Decision]]:
    """The kernel's refusals of tasks that the engine has switched by then, or switches there: by leg and task."""
    wanted: Dict[int, List[Decision]] = {}
    for decision in case.decisions.decisions:
        if decision.word == 'stays':
            wanted.setdefault(decision.event, []).append(decision)
    found: Dict[Tuple[int, int], List[Decision]] = {}
    engine = Engine(case)
    for event, _ in engine.events() if wanted else ():
        for decision in wanted.get(event.number, ()):
            if not waits(engine, event, decision.task) or (event.number, decision.task) in case.switched:
                found.setdefault((case.leg(event.number), decision.task), []).append(decision)
    return found


def waits(engine: Engine, event: Event, task: int) -> bool:
    """Whether a task waits at an event that looks at it."""
    looks = event.word == 'walk' or (event.word in ('exit', 'idle', 'resched') and event.task == task)
    return looks and engine.moving and not engine.on_target(task)


def refused_twice(case: Case, decision: Decision) -> Difference:
    """A refusal of a task that both had switched, or that isn't waiting."""
    return Difference(OTHER, decision.event, case.event(decision.event).line, decision.task,
                      f'{case.who(decision.task)} was refused ({decision.rest[0]}) at {case.place(decision.event)}, '
                      'and the engine doesn\'t let it wait there')


def versions(case: Case) -> List[Difference]:
    """Calls of which another version ran."""
    found = []
    for decision in case.decisions.decisions:
        if decision.word != 'ran':
            continue
        event, kernel = case.event(decision.event), case.level(decision.rest[0])
        reply, symbol = case.report.reply(decision.event), event.words[2]
        engine = 'none: it refuses the event'
        if reply.word == 'ran':
            version = case.trace.version_of(symbol, case.level(reply.value))
            if version == kernel:
                continue
            engine = case.version_word(version)
        found.append(Difference(VERSION, decision.event, event.line, decision.task,
                                f'{case.who(decision.task)} ran {case.version_word(kernel)} of {symbol} '
                                f'at {case.place(decision.event)}; the engine\'s is {engine}'))
    return found


def controls(case: Case) -> List[Difference]:
    """Controls that one of the two refused, and events that the engine alone calls impossible."""
    kernel: Set[int] = {decision.event for decision in case.decisions.decisions if decision.word == 'refused'}
    found = [Difference(OTHER, event, case.event(event).line, 0,
                        f'the kernel refused the control at {case.place(event)}; the engine takes it')
             for event in sorted(kernel - set(case.refused))]
    return found + [Difference(OTHER, event, case.event(event).line, case.event(event).task or 0,
                               f'the engine refuses {case.place(event)} ({case.refused[event]}); of the kernel no refusal is told')
                    for event in sorted(set(case.refused) - kernel)]


def births(case: Case) -> List[Difference]:
    """Children that were born on another side."""
    wanted = {decision.event: decision for decision in case.decisions.decisions if decision.word == 'born'}
    found: List[Difference] = []
    engine = Engine(case)
    for event, _ in engine.events() if wanted else ():
        decision = wanted.get(event.number)
        if decision and (decision.rest[0] == 'over') != engine.on_target(decision.task):
            found.append(Difference(OTHER, event.number, event.line, decision.task,
                                    f'{case.who(decision.task)} was born {decision.rest[0]} at {case.place(event.number)}; '
                                    'the engine has it on the other side'))
    return found
