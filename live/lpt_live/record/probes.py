"""The probes of a recording, as tracefs wants them written.

Entries alone are probed where a task may be preempted: a patched function must have no return probe.  The kernel's
unwinder refuses a runnable task with one on its stack (rethook_find_ret_addr, kernel/trace/rethook.c), with a warning:
such a probe makes the kernel call the stack unreliable, holds up the very transition, and takes a machine down that
panics at warnings.  When a frame ended is told by what comes after: the next call at or above its place on the stack
(hence `sp`), the return from the system call, or the kernel's own verdict.
"""
from typing import Iterator, List, NamedTuple, Optional

from .kernel import VERDICTS, Kernel
from .symbols import Symbol

GROUP = 'lpt_live'
SAME_TIME = 64              # return probes of one function that may be open at once


class Probe(NamedTuple):
    """A probe: its name among ours, where it is, what it fetches; `returns` for one at the function's end."""
    name: str
    where: str
    fetches: str = ''
    returns: bool = False

    def command(self) -> str:
        """The line for kprobe_events."""
        kind = f'r{SAME_TIME}' if self.returns else 'p'
        return f'{kind}:{GROUP}/{self.name} {self.where} {self.fetches}'.rstrip()


def removal(name: str, group: str = GROUP) -> str:
    """The line for kprobe_events that takes a probe away."""
    return f'-:{group}/{name}'


def place(kernel: Kernel, symbol: Symbol) -> str:
    """A function whose name isn't unique, by its distance from _stext: so spelled it counts as a function's entry."""
    return f'_stext+{symbol.address - kernel.symbols.places("_stext")[0].address}'


def of_livepatch(kernel: Kernel) -> List[Probe]:
    """What livepatch itself does: openings, walks and verdicts, checks, births and ends, completion, controls."""
    return [*_transition(kernel), *_checks(kernel), *_lives(kernel), *_controls(kernel)]


def _name(kernel: Kernel, function: str) -> str:
    return kernel.landmark(function) or function


def _transition(kernel: Kernel) -> Iterator[Probe]:
    btf, has = kernel.types(), kernel.symbols.has
    goal = 'target=@klp_target_state:s32' if has('klp_target_state') else ''
    patch = f'mod=+{btf.offset("module", "name")}(+{btf.offset("klp_patch", "mod")}($arg1)):string state=$arg2:s32'
    if btf.has('klp_patch', 'replace'):
        patch += f' replace=+{btf.offset("klp_patch", "replace")}($arg1):u8'
    start, walk = _name(kernel, 'klp_start_transition'), _name(kernel, 'klp_try_complete_transition')
    yield Probe('init', _name(kernel, 'klp_init_transition'), patch)
    yield Probe('reverse', _name(kernel, 'klp_reverse_transition'))
    yield Probe('start', start, goal)
    yield Probe('started', start, returns=True)
    yield Probe('walk', walk, goal)
    yield Probe('walked', walk, returns=True)
    yield Probe('complete', _name(kernel, 'klp_complete_transition'))
    if has('klp_send_signals'):             # some compilers inline it; then the kernel's log tells of its signals
        yield Probe('signals', 'klp_send_signals')
    if has('klp_force_transition'):
        yield Probe('force', 'klp_force_transition')


def _task(kernel: Kernel) -> str:
    btf = kernel.types()
    return (f'pid=+{btf.offset("task_struct", "pid")}($arg1):s32 '
            f'state=+{btf.offset("task_struct", "patch_state")}($arg1):s32')


def _checks(kernel: Kernel) -> Iterator[Probe]:
    btf = kernel.types()
    info = btf.offset('task_struct', 'thread_info')
    cpu = info + btf.offset('thread_info', 'cpu') if btf.has('thread_info', 'cpu') else btf.offset('task_struct', 'cpu')
    verdict = next(name for name in VERDICTS if kernel.symbols.has(name))
    yield Probe('check', verdict, f'{_task(kernel)} on=+{cpu}($arg1):u32')
    # Return probes are harmless here: the walker isn't looked at by another walk, and a task that checks itself is on a CPU.
    yield Probe('checked', verdict, 'ret=$retval:s32' if verdict == VERDICTS[0] else 'ok=$retval:u8', returns=True)
    # The flags tell a check from a call in vain: TIF_PATCH_PENDING may be clear already.
    yield Probe('update', _name(kernel, 'klp_update_patch_state'), f'{_task(kernel)} flags=+{info}($arg1):x64')


def _lives(kernel: Kernel) -> Iterator[Probe]:
    btf = kernel.types()
    pid, tgid, flags = (btf.offset('task_struct', member) for member in ('pid', 'tgid', 'flags'))
    yield Probe('copy', _name(kernel, 'klp_copy_process'),
                f'pid=+{pid}($arg1):s32 tgid=+{tgid}($arg1):s32 flags=+{flags}($arg1):x32')
    yield Probe('release', _name(kernel, 'release_task'), _task(kernel))


def _controls(kernel: Kernel) -> Iterator[Probe]:
    yield Probe('load', _name(kernel, 'klp_enable_patch'), 'ret=$retval:s32', returns=True)
    store = kernel.enabled_store()
    if store:
        yield Probe('ctl', place(kernel, store), 'val=+0($arg3):string')
        yield Probe('ctld', place(kernel, store), 'ret=$retval:s64', returns=True)


def of_function(kernel: Kernel, number: int, key: str, places: List[Symbol], position: int) -> Optional[Probe]:
    """The entry of a patched function, with the stack pointer; None if its name is shared and its place not known."""
    if len(places) < 2:
        return Probe(f'f{number}', key, 'sp=$stack')
    if not 0 < position <= len(places):
        return None
    return Probe(f'f{number}', place(kernel, places[position - 1]), 'sp=$stack')
