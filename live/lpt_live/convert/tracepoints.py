"""The kernel's own tracepoints, the recorder's marks, and the entries of patched functions."""
import re
from typing import Dict

from ..errors import Refused
from .lines import Line
from .reading import Handler, Reading

SWITCH = re.compile(r'prev_comm=(.*) prev_pid=(\d+) prev_prio=-?\d+ prev_state=(\S+) ==> '
                    r'next_comm=(.*) next_pid=(\d+) next_prio=')
FORK = re.compile(r'comm=(.*) pid=(\d+) child_comm=(.*) child_pid=(\d+)')


def sched_switch(reading: Reading, _: int, line: Line) -> None:
    """One task leaves the CPU, another is on it.  What moves a task between the modes is this, not sleep and wakeup: off
    the CPU is `!task_curr` for livepatch, whether blocked, preempted, or never run yet."""
    match = SWITCH.search(line.rest)
    if match is None:
        raise Refused(f'record {line.place} is no sched_switch: {line.rest}')
    previous = reading.roster.number(int(match[2]), line.cpu)
    following = reading.roster.number(int(match[5]), line.cpu)
    reading.roster.comm[previous] = match[1]
    reading.roster.comm[following] = match[4]
    reading.add('out', previous, line, text=match[3][0])
    reading.add('in', following, line)


def sys_enter(reading: Reading, task: int, line: Line) -> None:
    """A system call begins."""
    reading.add('enter', task, line)


def sys_exit(reading: Reading, task: int, line: Line) -> None:
    """A system call is over; the task is still in the kernel, on its way out."""
    reading.add('exit', task, line)


def sched_process_exit(reading: Reading, task: int, line: Line) -> None:
    """The task is in do_exit; it won't be in user space again."""
    reading.add('dying', task, line)


def sched_process_fork(reading: Reading, task: int, line: Line) -> None:
    """The child is there: a fork can still fail after klp_copy_process, and then this never comes."""
    match = FORK.search(line.rest)
    if match is None:
        raise Refused(f'record {line.place} is no sched_process_fork: {line.rest}')
    reading.add('forked', task, line, about=reading.roster.number(int(match[4]), line.cpu))


def tracing_mark_write(reading: Reading, task: int, line: Line) -> None:
    """The recorder's marks: `klprec> N` and `klprec< N` round a look into /proc, `klprec= N SECONDS` for the time."""
    words = line.rest.split()
    if not words or not words[0].startswith('klprec'):
        return
    try:
        take_mark(reading, task, line, words[0], int(words[1]), float(words[-1]))
    except (ValueError, IndexError):
        raise Refused(f'record {line.place} is no mark of the recorder: {line.rest}') from None


def take_mark(reading: Reading, task: int, line: Line, word: str, number: int, seconds: float) -> None:
    """Takes a mark."""
    if word == 'klprec>':
        reading.marks[number] = [line.place, None]
        reading.add('ask', task, line, about=number)
    elif word == 'klprec<':
        reading.marks.setdefault(number, [None, None])[1] = line.place
        reading.add('told', task, line, about=number)
    elif word == 'klprec=':
        reading.add('time', task, line, seconds=seconds)


def call(reading: Reading, task: int, line: Line) -> None:
    """A function is entered, an old one or a new one (which tells the version that ran).

    Calls in interrupts are left out, as in the models: the interrupted task isn't in the function.
    """
    if line.in_interrupt:
        reading.log['calls in interrupts, left out'] += 1
        return
    function = reading.functions.of_probe.get(int(line.name[1:]))
    if function is None:
        return
    if function.patch is None:
        fields = line.fields()
        reading.add('call', task, line, text=function.symbol, sp=fields.number('sp') if 'sp' in fields else None)
    else:
        reading.add('newcall', task, line, text=function.symbol, module=function.patch)


def nothing(_: Reading, __: int, ___: Line) -> None:
    """A probe into the kernel's list of patches: `Functions` has read it."""


HANDLERS: Dict[str, Handler] = {
    'sched_switch': sched_switch, 'sys_enter': sys_enter, 'sys_exit': sys_exit, 'sched_process_exit': sched_process_exit,
    'sched_process_fork': sched_process_fork, 'tracing_mark_write': tracing_mark_write, 'f': call, 'm': nothing}
