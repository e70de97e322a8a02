"""The answer: who waits, where, and what would help."""
import time
from typing import Dict, List

from ..convert.reading import has_own_check
from ..explain.case import Case, chosen
from ..explain.hints import by_signal, what_ends
from ..explain.page import naming_of
from ..explain.waiting import Moment, Waiter
from ..errors import Refused
from ..record.looks import Row
from .seen import Seen

STATES = {'R': 'runnable, or on a CPU', 'S': 'asleep', 'D': 'asleep, uninterruptibly', 'T': 'stopped', 't': 'stopped by a debugger',
          'I': 'idle', 'Z': 'a zombie', 'X': 'dead', 'P': 'parked'}
NONE_SEEN = ('No task in /proc waits: the kernel completes the transition at its next walk, or an idle task waits '
             'for its idle point.')


def head(seen: Seen, by: str) -> List[str]:
    """Which patch, to which side, and how many wait."""
    patch = seen.moving
    assert patch is not None
    word = 'patching' if patch.enabled else 'unpatching'
    names = ', '.join(function.name for function in patch.functions)
    begun = [seconds for seconds, text in seen.log if patch.name in text and f'starting {word}' in text]
    since = f' since {time.strftime("%H:%M:%S", time.localtime(begun[-1]))} by the kernel\'s log' if begun else ''
    return [f'Patch {patch.name}: {names}', f'{word}{since}; {len(seen.waiting())} of {len(seen.tasks())} tasks wait ({by})']


def title(row: Row) -> str:
    """A task as a line says it."""
    kind = 'kernel thread' if row['kt'] else 'pid' if row['t'] == row['g'] else f'thread of {row["g"]},'
    return f'  {row["comm"]} ({kind} {row["t"]}), {STATES.get(row["s"], row["s"])}'


def by_engine(seen: Seen) -> str:
    """The waiting tasks with the engine's reasons: `lpt run hybrid` on the trace of this moment."""
    got = seen.converted()
    case = Case(got.trace, 'hybrid', got.names, 'now')
    naming, transition = naming_of(case), chosen(case, None)
    if transition is None:
        raise Refused('the trace of this moment has no transition')
    waiters = Moment(case, naming, None, transition, len(case.events)).waiters()
    numbers = {who.pid: number for number, who in got.names.tasks.items() if who.kind != 'idle'}
    row_of = {numbers[row['t']]: row for row in seen.tasks() if row['t'] in numbers}
    lines = head(seen, 'by /proc; why by lpt, under hybrid')
    apart = {waiter.group for waiter in waiters} ^ {numbers[row['t']] for row in seen.waiting() if row['t'] in numbers}
    for waiter in waiters:
        lines += entry(waiter, row_of, own_check(seen))
    if apart:
        lines.append('CAUTION: the engine and /proc don\'t name the same waiting tasks: a task moved while they were looked at')
    return '\n'.join(lines + ([] if seen.waiting() else [NONE_SEEN])) + '\n'


def own_check(seen: Seen) -> str:
    """A further chance of a task that runs, on kernels that have it."""
    return ', or at its own check at cond_resched' if has_own_check(seen.release[2]) else ''


def entry(waiter: Waiter, row_of: Dict[int, Row], own: str) -> List[str]:
    """One task that waits."""
    row = row_of.get(waiter.group)
    if row is None:
        return [f'  {waiter.who}: {waiter.place}']
    if not waiter.function:
        return [title(row), f'    {without_frame(row, own)}', *stack_line(row)]
    ends = waiter.help or what_helps(row, waiter.function)
    return [title(row), f'    {waiter.place}, which the patch changes', *stack_line(row),
            f'    goes over {waiter.goes_over}', *([f'    to help: {ends}'] if ends else [])]


def stack_line(row: Row) -> List[str]:
    """The stack, the innermost function first."""
    return [f'    stack: {" < ".join(row["stack"])}'] if row['stack'] else []


def without_frame(row: Row, own: str) -> str:
    """What is said of a task that waits without a replaced function on its stack, or whose stack isn't known."""
    if row['stack'] is None:
        return 'its stack is unknown (root sees it): it waits in a replaced function, or ran at each walk so far'
    if row['s'] == 'R' and not row['stack']:
        return ('is on a CPU, so its stack is unknown: goes over at its next return to user space' if not row['kt'] else
                'is on a CPU, so its stack is unknown: goes over at the first walk that finds it off its CPU') + own
    return 'has no replaced function on its stack now: goes over at the next walk that finds it off its CPU'


def what_helps(row: Row, function: str) -> str:
    """What ends its sleep, where that is known."""
    ends = what_ends(function, row['stack'] or [])
    if row['kt']:
        return f'{ends or "let what it waits for happen"}; signals don\'t reach it'
    return (ends or 'let what it waits for happen') + by_signal(row['s'], row['t'])


def by_proc(seen: Seen, reason: str) -> str:
    """The waiting tasks as /proc shows them, where no engine can say why."""
    lines = head(seen, 'by /proc alone')
    lines.append(f'NOT BY THE ENGINE: {reason}')
    lines.append('What follows are stacks with the names of replaced functions on them, and no decision of anybody.')
    for row in seen.waiting():
        found = frames(seen, row)
        told = f'is in {", ".join(found)}' if found else without_frame(row, own_check(seen))
        lines += [title(row), f'    {told}', *stack_line(row)]
    return '\n'.join(lines + ([] if seen.waiting() else [NONE_SEEN])) + '\n'


def frames(seen: Seen, row: Row) -> List[str]:
    """The replaced functions on a stack, by their names: in the patch's module when it is taken off, else elsewhere."""
    assert seen.moving is not None
    module = f' [{seen.moving.name}]'
    if not seen.moving.enabled:
        return [each[:-len(module)] for each in row['stack'] or [] if each.endswith(module)]
    shown = {other: each['name'] for each in seen.functions.values() for other in [each['name'], *each['aliases']]}
    wanted = {function.name for function in seen.moving.functions}
    names = [shown.get(each.split(' ')[0]) for each in row['stack'] or [] if not each.endswith(module)]
    return [name for name in names if name in wanted]
