"""Small recordings, written record by record as tracefs has them: for tests of one rule each.

Tasks: 10 and 11 are user tasks (reader, writer), 20 is a kernel thread (kworker/0:1), 0 is the idle task of a CPU.  In
traces the idle task of CPU 0 is 65535, that of CPU 1 is 65534.  Patch p replaces a by new_a, patch q replaces b by new_b.
"""
import collections
from typing import Any, Dict, List, Optional, Sequence, Tuple

import support  # noqa: F401  (puts the package on the path)

from lpt_live.convert import Converted, converted
from lpt_live.recording import Recording
from lpt_live.trace import parse

COMMS = {0: 'swapper', 10: 'reader', 11: 'writer', 12: 'child', 20: 'kworker/0:1'}
PENDING = 0x2000
EBUSY, EINVAL, EADDRINUSE = -16, -22, -98
PATCHES = {'p': {'a': 'new_a'}, 'q': {'b': 'new_b'}}
PROBES = ['init', 'reverse', 'start', 'started', 'walk', 'walked', 'complete', 'check', 'checked', 'update', 'copy', 'release']


class Kernel:
    """What the recorder saw; `converted()` makes a trace of it."""

    def __init__(self, release: str = '6.1.0', before: Optional[Dict[str, str]] = None, switches: bool = True,
                 calls: bool = True) -> None:
        functions = {}
        for number, (name, owner, side) in enumerate([('a', 'vmlinux', 'old'), ('new_a', 'p', 'new'), ('b', 'vmlinux', 'old'),
                                                      ('new_b', 'q', 'new'), ('other', 'vmlinux', 'old')]):
            functions[name] = {'n': number, 'name': name, 'object': owner, 'side': side, 'probed': calls, 'loaded': True}
        functions['a']['aliases'] = ['__do_a']
        self.numbers = {name: function['n'] for name, function in functions.items()}
        events = ['sched/sched_process_fork', 'sched/sched_process_exit'] + (
            ['sched/sched_switch', 'raw_syscalls/sys_enter', 'raw_syscalls/sys_exit'] if switches else [])
        patches = {patch: {'enabled': '1' if state in ('on', 'patching') else '0',
                           'transition': '1' if state in ('patching', 'unpatching') else '0',
                           'functions': [['vmlinux', old, 1] for old in PATCHES[patch]]}
                   for patch, state in (before or {}).items()}
        self.meta: Dict[str, Any] = {
            'version': 1, 'uname': ['Linux', 'host', release, '#1 SMP', 'x86_64'], 'cpus': 2, 'clock': 'counter', 'events': events,
            'probes': PROBES + (['f0', 'f1', 'f2', 'f3', 'f4'] if calls else []), 'refused': [], 'functions': functions,
            'modules': {patch: [[old, new] for old, new in pairs.items()] for patch, pairs in PATCHES.items()},
            'before': patches, 'after': {}, 'me': 99, 'stats': {'overrun': 0, 'commit overrun': 0, 'dropped events': 0},
            'missed': {}, 'lacks': [], 'notes': []}
        self.proc: List[Dict[str, Any]] = []
        self.lines: List[str] = []
        self.clock = 100
        self.looks = 0

    def at(self, name: str, pid: int, rest: str, cpu: int = 0, flags: str = '.....') -> None:
        """One record."""
        self.clock += 1
        self.lines.append(f'{COMMS.get(pid, "task"):>16}-{pid:<7} [{cpu:03}] {flags} {self.clock:>12}: {name}: {rest}')

    def probe(self, name: str, pid: int, fields: str = '', cpu: int = 0, flags: str = '.....') -> None:
        """A record of a probe."""
        self.at(name, pid, f'(f+0x0/0x10) {fields}'.rstrip(), cpu, flags)

    def switch(self, previous: int, following: int, state: str = 'S', cpu: int = 0) -> None:
        """sched_switch."""
        self.at('sched_switch', previous, f'prev_comm={COMMS.get(previous, "task")} prev_pid={previous} prev_prio=120 '
                f'prev_state={state} ==> next_comm={COMMS.get(following, "task")} next_pid={following} next_prio=120', cpu)

    def sys_enter(self, pid: int, cpu: int = 0) -> None:
        """A system call begins."""
        self.at('sys_enter', pid, 'NR 0 (3, 7f00, 1, 0, 0, 0)', cpu)

    def sys_exit(self, pid: int, cpu: int = 0) -> None:
        """A system call is over."""
        self.at('sys_exit', pid, 'NR 0 = 1', cpu)

    def call(self, pid: int, name: str, sp: int = 0xff00, cpu: int = 0, flags: str = '.....') -> None:
        """A function is entered."""
        self.probe(f'f{self.numbers[name]}', pid, f'sp={sp:#x}', cpu, flags)

    def update(self, pid: int, state: int, pending: bool = True, cpu: int = 0) -> None:
        """klp_update_patch_state of the task itself."""
        self.probe('update', pid, f'pid={pid} state={state} flags={PENDING if pending else 0:#x}', cpu)

    def begin(self, pid: int, patch: str = 'p', state: int = 1, cpu: int = 0) -> None:
        """klp_init_transition, klp_start_transition."""
        self.probe('init', pid, f'mod="{patch}" state={state} replace=0', cpu)
        self.probe('start', pid, f'target={state}', cpu)
        self.probe('started', pid, '', cpu)

    def reverse(self, pid: int, target: int, cpu: int = 0) -> None:
        """klp_reverse_transition."""
        self.probe('reverse', pid, '', cpu)
        self.probe('start', pid, f'target={target}', cpu)
        self.probe('started', pid, '', cpu)

    def check(self, walker: int, pid: int, state: int, verdict: int, cpu: int = 0, on: int = 0) -> None:
        """klp_check_and_switch_task."""
        self.probe('check', walker, f'pid={pid} state={state} on={on}', cpu)
        self.probe('checked', walker, f'ret={verdict}', cpu)

    def walk(self, walker: int, checks: Sequence[Tuple[int, int, int]] = (), target: int = 1, completes: bool = False,
             cpu: int = 0) -> None:
        """klp_try_complete_transition, with the checks of (pid, state, verdict)."""
        self.probe('walk', walker, f'target={target}', cpu)
        for pid, state, verdict in checks:
            self.check(walker, pid, state, verdict, cpu)
        if completes:
            self.probe('complete', walker, '', cpu)
        self.probe('walked', walker, '', cpu)

    def fork(self, parent: int, child: int, thread: bool = False, succeeds: bool = True, cpu: int = 0) -> None:
        """klp_copy_process, and the tracepoint of a fork that came to something."""
        self.probe('copy', parent, f'pid={child} tgid={parent if thread else child} flags=0x400040', cpu)
        if succeeds:
            self.at('sched_process_fork', parent, f'comm=x pid={parent} child_comm=x child_pid={child}', cpu)

    def release(self, pid: int, by: int, state: int = -1, cpu: int = 0) -> None:
        """release_task."""
        self.probe('release', by, f'pid={pid} state={state}', cpu)

    def ask(self) -> int:
        """A look into /proc begins; its number."""
        self.looks += 1
        self.at('tracing_mark_write', 99, f'klprec> {self.looks}', 1)
        return self.looks

    def told(self, look: int) -> None:
        """A look is over."""
        self.at('tracing_mark_write', 99, f'klprec< {look}', 1)

    def snapshot(self, *tasks: int, stacks: Optional[Dict[int, List[str]]] = None, states: Optional[Dict[int, int]] = None) -> None:
        """The look at each task at the start."""
        look = self.ask()
        self.proc.append({'snap': look, 'tasks': [
            {'t': pid, 'g': pid, 'comm': COMMS[pid], 's': 'S', 'kt': int(pid >= 20), 'cpu': 0, 'ps': str((states or {}).get(pid, -1)),
             'stack': (stacks or {}).get(pid, ['schedule', 'entry'])} for pid in tasks]})
        self.told(look)

    def sample(self, look: int, states: Dict[int, str], stacks: Optional[Dict[int, List[str]]] = None) -> None:
        """What a look showed of these tasks."""
        self.proc.append({'sample': look, 'tasks': [
            dict({'t': pid, 'ps': state}, **({'stack': stacks[pid], 's': 'S'} if stacks and pid in stacks else {}))
            for pid, state in states.items()]})

    def time(self, seconds: float) -> None:
        """The recorder's mark of the time."""
        self.at('tracing_mark_write', 99, f'klprec= 1 {seconds}', 1)

    def recording(self) -> Recording:
        """The recording."""
        return Recording(self.meta, self.proc, self.lines)

    def converted(self, whole: bool = True) -> Converted:
        """The conversion."""
        return converted(self.recording(), whole)

    def events(self, *tasks: int) -> List[str]:
        """The events after the prologue; with tasks only theirs and those of no task."""
        result = self.converted()
        events = [event.text for event in parse(result.trace).events[result.names.prologue:]]
        return [event for event in events if not tasks or len(event.split()) < 2 or int(event.split()[1]) in tasks]

    def prologue(self) -> List[str]:
        """The events of the prologue."""
        result = self.converted()
        return [event.text for event in parse(result.trace).events[:result.names.prologue]]

    def decisions(self, *words: str) -> List[str]:
        """The kernel's decisions, with these words; each event's number replaced by the event."""
        result = self.converted()
        events = [event.text for event in parse(result.trace).events]
        return [f'{decision.word} [{events[decision.event - 1]}] {decision.task} {" ".join(decision.rest)}'.rstrip()
                for decision in result.expectation.decisions if not words or decision.word in words]

    def log(self) -> Dict[str, int]:
        """What the converter counted."""
        return collections.Counter(self.converted().names['log'])


def kernel(release: str = '6.1.0') -> Kernel:
    """10 sleeps in a, 11 in a read, 20 waits for work; nothing is patched."""
    machine = Kernel(release)
    machine.snapshot(10, 11, 20, stacks={10: ['schedule', 'a', 'entry']})
    return machine


def loaded(release: str = '6.1.0') -> Kernel:
    """The same, with p loaded by 11, which has left its CPU."""
    machine = kernel(release)
    machine.switch(0, 11)
    machine.begin(11)
    machine.switch(11, 0)
    return machine
