"""Which scenarios run on which kernels: one boot for each line of kernels and kind of preemption."""
from typing import Dict, List, NamedTuple

LINES = ('6.1', '6.12')
SCENARIOS: Dict[str, str] = {
    'kernel-thread': 'a kernel thread that does not sleep, in a patched function and outside of it',
    'load': 'completion under load: tasks that read /proc/cmdline, fork and compute',
    'sleepers': 'sleepers in pipe_read and pause(2), recorded by default',
    'now': 'who waits now, told without a recorder',
    'no-syscalls': 'as sleepers, with switches and calls recorded',
    'all': 'callers and a sleeper, with everything recorded',
    'reversal': 'an enable turned round, and turned round again; then a disable',
    'stacked': 'three patches over threads and forks, the upper two taken away again',
    'attach-enable': 'the recorder comes to an enable that has been stuck for seconds',
    'attach-disable': 'the recorder comes to a stuck disable, which is then turned round, twice',
    'fates': 'tasks that hold the patch open are killed, stopped, left as zombies',
    'open': 'the recording ends while two tasks hold the patch open',
    'refused': 'a second patch in a transition, and a value that is there already',
    'killed-recorder': 'the recorder ended by each signal, and by one that it cannot catch',
    'thunk': 'tasks preempted in calls through a pointer, deep in a patched function',
    'cost': 'what recording costs',
}
ALWAYS = [name for name in SCENARIOS if name not in ('thunk', 'cost')]
FULL = ['load', 'sleepers', 'all', 'reversal', 'stacked', 'attach-enable', 'fates', 'open', 'kernel-thread', 'thunk']
# The kernel is wrong there, and `verify` must say so: Linux 6.1 can take a stack for reliable that it didn't see whole.
MAY_DIFFER = {('6.1', 'full', 'thunk')}


class Boot(NamedTuple):
    """One run of the guest."""
    line: str
    preempt: str
    scenarios: List[str]


def boots(lines: List[str], chosen: List[str], preempts: List[str]) -> List[Boot]:
    """What is to run; `chosen` scenarios run in every boot, without them each boot has its own list."""
    found = []
    for line in lines:
        for preempt in preempts:
            usual = FULL if preempt else ALWAYS + (['cost'] if line == LINES[0] else [])
            found.append(Boot(line, preempt, chosen or usual))
    return found
