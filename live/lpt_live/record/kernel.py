"""What this kernel has of what a recording needs, and what it lacks."""
import re
from typing import Iterator, List, NamedTuple, Optional, Union

from .btf import Btf, NoBtf
from .patches import LIVEPATCH
from .symbols import Symbol, Symbols
from .system import System

TRACEFS = ('/sys/kernel/tracing', '/sys/kernel/debug/tracing')
BTF = '/sys/kernel/btf/vmlinux'
STRUCTURES = ('task_struct', 'thread_info', 'klp_patch', 'klp_object', 'klp_func', 'module')
SWITCH, FORK, EXIT = 'sched/sched_switch', 'sched/sched_process_fork', 'sched/sched_process_exit'
SYSTEM_CALLS = ['raw_syscalls/sys_enter', 'raw_syscalls/sys_exit']
# Functions that a recording can't be without, and what each tells.
LANDMARKS = {
    'klp_init_transition': 'a transition begins, for which patch and to which side',
    'klp_reverse_transition': 'it is turned round',
    'klp_start_transition': 'the tasks are told',
    'klp_try_complete_transition': 'a walk over all tasks',
    'klp_update_patch_state': 'a check at kernel exit or at an idle point',
    'klp_complete_transition': 'the completion',
    'klp_copy_process': 'a birth',
    'klp_enable_patch': 'a patch is loaded',
    'release_task': 'an end',
}
# One of the two: the second is probed where the compiler inlined the first; it answers yes or no without a reason.
VERDICTS = ('klp_check_and_switch_task', 'klp_try_switch_task')
RELIABLE = ('arch_stack_walk_reliable', 'save_stack_trace_tsk_reliable')      # the second is the older one
TRIED = ('6.1.', '6.12.')


class Finding(NamedTuple):
    """One thing that was looked at: whether it is there, whether a recording needs it, and what is without it."""
    there: bool
    needed: bool
    what: str
    without: str = ''

    @property
    def missing(self) -> str:
        """What is said where it isn't there."""
        return f'{self.what}; without it {self.without}' if self.without else self.what


class Kernel:
    """The running kernel's means, looked up once."""

    def __init__(self, system: System) -> None:
        self.system = system
        self.tracefs = next((place for place in TRACEFS if system.exists(place + '/kprobe_events')), '')
        self.symbols = Symbols(system.bytes_of('/proc/kallsyms') or b'')
        self.btf = self._btf()
        self.stacks = system.maybe('/proc/self/stack') is not None
        self.findings = list(self._findings())

    def _btf(self) -> Union[Btf, NoBtf]:
        try:
            btf = Btf(self.system.bytes_of(BTF) or b'', STRUCTURES)
            btf.offset('task_struct', 'patch_state')
            return btf
        except NoBtf as reason:
            return reason

    def types(self) -> Btf:
        """The type information, where the findings said that it is there."""
        if isinstance(self.btf, NoBtf):
            raise self.btf
        return self.btf

    def event(self, name: str) -> bool:
        """Whether the kernel has a trace event."""
        return bool(self.tracefs) and self.system.exists(f'{self.tracefs}/events/{name}')

    def landmark(self, name: str) -> Optional[str]:
        """A function of livepatch by the name that it has here.  The compiler may have split klp_start_transition, and put
        its test for a transition that is over already into the callers: then the rest is the function."""
        names = (name + '.part.0', name) if name == 'klp_start_transition' else (name,)
        return next((each for each in names if self.symbols.has(each)), None)

    def enabled_store(self) -> Optional[Symbol]:
        """The function that takes writes of `enabled`.  Several have its name: the one among livepatch's own."""
        own = self.symbols.places('klp_enable_patch')
        near = [place for place in self.symbols.places('enabled_store')
                if own and not place.module and abs(place.address - own[0].address) < 1 << 15]
        return near[0] if len(near) == 1 else None

    @property
    def lacks(self) -> List[str]:
        """What is missing, and a recording can't be without."""
        return [finding.missing for finding in self.findings if finding.needed and not finding.there]

    @property
    def notes(self) -> List[str]:
        """What is missing, and makes a recording poorer."""
        return [finding.missing for finding in self.findings if not finding.needed and not finding.there]

    def _findings(self) -> Iterator[Finding]:
        """All of them; what can only be missing because of something else isn't said too."""
        yield from self._privileges()
        if self.tracefs:
            yield from self._tracing()
        else:
            yield Finding(False, True, 'tracefs with kprobe_events (CONFIG_KPROBE_EVENTS; is it mounted at '
                          f'{TRACEFS[0]}? only root sees it)')
        if self.system.exists(LIVEPATCH):
            yield from self._functions()
        yield from self._proc()

    def _privileges(self) -> Iterator[Finding]:
        system = self.system
        yield Finding(system.privileged(), True, 'root', 'nobody may trace, or see the stacks of other tasks')
        yield Finding(system.machine() == 'x86_64', True, 'x86-64', 'the flags of a task aren\'t known')
        down = re.search(r'\[(\w+)\]', system.read('/sys/kernel/security/lockdown'))
        yield Finding(not down or down[1] != 'confidentiality', True,
                      'kprobes: the kernel is locked down for confidentiality (/sys/kernel/security/lockdown)')
        yield Finding(system.exists(LIVEPATCH), True, f'{LIVEPATCH} (CONFIG_LIVEPATCH)')
        yield Finding(any(map(self.symbols.has, RELIABLE)), False, 'reliable stacks (CONFIG_HAVE_RELIABLE_STACKTRACE)',
                      'the kernel\'s walks switch no task, and each has to leave the kernel')

    def _tracing(self) -> Iterator[Finding]:
        clocks = self.system.read(self.tracefs + '/trace_clock')
        yield Finding('counter' in clocks.replace('[', ' ').replace(']', ' ').split(), True, 'the trace clock `counter`',
                      'the records of several CPUs have no order')
        for name, tells in ((FORK, 'births'), (EXIT, 'ends')):
            yield Finding(self.event(name), True, f'the trace event {name}', f'{tells} aren\'t seen')
        yield Finding(self.event(SWITCH), False, f'the trace event {SWITCH}', '--all and --no-syscalls can\'t tell modes')
        yield Finding(all(map(self.event, SYSTEM_CALLS)), False, 'the trace events raw_syscalls (CONFIG_FTRACE_SYSCALLS)',
                      '--all sees kernel exits only where the kernel makes its check')

    def _functions(self) -> Iterator[Finding]:
        yield Finding(isinstance(self.btf, Btf), True, f'{BTF} (CONFIG_DEBUG_INFO_BTF) with task_struct.patch_state',
                      'a probe can\'t tell which task it is about')
        yield Finding(self.symbols.readable('klp_update_patch_state'), True, 'addresses in /proc/kallsyms (root? '
                      '/proc/sys/kernel/kptr_restrict?)')
        for name, tells in LANDMARKS.items():
            yield Finding(self.landmark(name) is not None, True, f'the function {name}', f'nothing tells: {tells}')
        yield Finding(any(map(self.symbols.has, VERDICTS)), True, f'the function {VERDICTS[0]} or {VERDICTS[1]}',
                      'no verdict of a walk is seen (both are inlined here)')
        yield Finding(self.symbols.has(VERDICTS[0]), False, f'the function {VERDICTS[0]}', 'verdicts have no reason')
        yield Finding(self.enabled_store() is not None, False, 'enabled_store of livepatch',
                      'refused writes of `enabled` aren\'t seen')

    def _proc(self) -> Iterator[Finding]:
        yield Finding(self.stacks, False, '/proc/PID/stack (CONFIG_STACKTRACE)', 'frames from before a recording are unknown')
        yield Finding(self.system.exists('/proc/self/patch_state') or not self.system.exists(LIVEPATCH), True,
                      '/proc/PID/patch_state')
        words = self.system.read('/proc/version').split()
        release = words[2] if len(words) > 2 else 'unknown'
        yield Finding(release.startswith(TRIED), False,
                      f'a trial on this kernel: Linux 6.1 and 6.12 were tried, this one is {release}')
