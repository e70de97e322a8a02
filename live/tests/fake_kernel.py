"""A machine made of files: /proc, /sys and a tracefs that takes probes and instances as the kernel does.

What the kernel refuses is refused here too: a probe that is on can't be taken away, an instance whose probes are on
can't go, and a probe on a function that isn't there can't be set.
"""
import errno
import os
import re
import shutil
import struct
from typing import Callable, Dict, List, Tuple

from support import LIVE  # noqa: F401  (puts the package on the path)

from lpt_live.record.system import System

TRACEFS = '/sys/kernel/tracing'
STRUCTS: Dict[str, Tuple[int, Dict[str, int]]] = {
    'task_struct': (9000, {'thread_info': 0, 'flags': 44, 'pid': 1400, 'tgid': 1404, 'patch_state': 2000}),
    'thread_info': (24, {'flags': 0, 'cpu': 20}),
    'klp_patch': (160, {'mod': 0, 'objs': 8, 'states': 16, 'replace': 24, 'list': 32}),
    'klp_object': (128, {'name': 0, 'funcs': 8}),
    'klp_func': (168, {'old_name': 0, 'new_func': 8}),
    'module': (900, {'state': 0, 'list': 8, 'name': 24}),
}
SYMBOLS = """\
ffffffff81000000 T _stext
ffffffff81000010 t enabled_store
ffffffff81000020 t pipe_read
ffffffff81000030 t __do_sys_pause
ffffffff81000030 T __x64_sys_pause
ffffffff81000040 t twice
ffffffff81000050 t twice
ffffffff81900000 T klp_enable_patch
ffffffff81900100 t enabled_store
ffffffff81900200 t klp_init_transition
ffffffff81900300 t klp_reverse_transition
ffffffff81900400 t klp_start_transition.part.0
ffffffff81900410 t klp_start_transition
ffffffff81900500 t klp_try_complete_transition
ffffffff81900600 t klp_check_and_switch_task
ffffffff81900700 T klp_update_patch_state
ffffffff81900800 t klp_complete_transition
ffffffff81900900 T klp_copy_process
ffffffff81900a00 T klp_force_transition
ffffffff81910000 T release_task
ffffffff81920000 T arch_stack_walk_reliable
ffffffff81930000 t proc_pid_patch_state
ffffffff82000000 D klp_target_state
ffffffff82000010 D klp_patches
ffffffffc0000000 t box_a\t[klp_box]
"""


def btf_blob(structs: Dict[str, Tuple[int, Dict[str, int]]] = STRUCTS) -> bytes:
    """Type information as the kernel has it: an int, then the structures."""
    strings, types = b'\0', b''

    def name(text: str) -> int:         # each string once, as in the kernel's own
        nonlocal strings
        at = strings.find(b'\0' + text.encode() + b'\0')
        if at < 0:
            strings += text.encode() + b'\0'
            return len(strings) - len(text) - 1
        return at + 1
    types += struct.pack('<IIII', name('int'), 1 << 24, 4, 32)
    for struct_name, (size, members) in structs.items():
        types += struct.pack('<III', name(struct_name), 4 << 24 | len(members), size)
        for member, offset in members.items():
            types += struct.pack('<III', name(member), 1, offset * 8)
    return struct.pack('<HBBIIIII', 0xeb9f, 1, 0, 24, 0, len(types), len(types), len(strings)) + types + strings


class FakeKernel(System):
    """The machine; `log` has each command that probes were set and taken away with."""

    def __init__(self, root: str) -> None:
        super().__init__(root)
        self.log: List[str] = []
        self.when_on: List[Callable[[], None]] = []     # what is to be done once a recorder has switched its instance on

    def machine(self) -> str:
        """These files are of such a machine, whatever the tests run on."""
        return 'x86_64'

    def build(self) -> 'FakeKernel':
        """Makes the files of a kernel that has all that a recording needs, with no patch and two tasks."""
        self.file('/proc/version', 'Linux version 6.1.0-56-amd64 (nobody)\n')
        self.file('/proc/cmdline', 'quiet\n')
        self.file('/proc/modules', '')
        self.file('/proc/kallsyms', SYMBOLS)
        self.file('/proc/self/stack', '')
        self.file('/proc/self/patch_state', '-1\n')
        self.folder('/sys/kernel/livepatch')
        os.makedirs(os.path.dirname(self.path('/sys/kernel/btf/vmlinux')))
        with open(self.path('/sys/kernel/btf/vmlinux'), 'wb') as out:
            out.write(btf_blob())
        self.file(TRACEFS + '/kprobe_events', '')
        self.file(TRACEFS + '/kprobe_profile', '')
        self.file(TRACEFS + '/trace_clock', 'local [global] counter x86-tsc\n')
        self.folder(TRACEFS + '/instances')
        for event in ('sched/sched_switch', 'sched/sched_process_fork', 'sched/sched_process_exit',
                      'raw_syscalls/sys_enter', 'raw_syscalls/sys_exit'):
            self.folder(f'{TRACEFS}/events/{event}')
        self.task(1, 'init', 'S', stack=['do_wait', '__do_sys_wait4'])
        self.task(7, 'cat', 'S', stack=['pipe_read', 'vfs_read'])
        return self

    def file(self, name: str, text: str) -> None:
        """Makes a file."""
        self.folder(os.path.dirname(name))
        with open(self.path(name), 'w', encoding='utf-8') as out:
            out.write(text)

    def folder(self, name: str) -> None:
        """Makes a folder."""
        os.makedirs(self.path(name), exist_ok=True)

    def task(self, pid: int, comm: str, state: str, patch_state: str = '-1', stack: List[str] = []) -> None:
        """Makes a task of one thread."""
        base = f'/proc/{pid}/task/{pid}'
        self.file(base + '/stat', f'{pid} ({comm}) {state} 1 1 1 0 -1 0 ' + '0 ' * 29 + '1 0 0\n')
        self.file(base + '/patch_state', patch_state + '\n')
        self.file(base + '/stack', ''.join(f'[<0>] {name}+0x10/0x20\n' for name in stack))

    def patch(self, name: str, enabled: bool, moving: bool, functions: List[str]) -> None:
        """Loads a patch, or changes its state."""
        base = f'/sys/kernel/livepatch/{name}'
        for function in functions:
            self.folder(f'{base}/{function}')
        self.file(base + '/enabled', f'{int(enabled)}\n')
        self.file(base + '/transition', f'{int(moving)}\n')
        if name not in self.read('/proc/modules'):
            self.file('/proc/modules', f'{name} 16384 1 - Live 0x0\n' + self.read('/proc/modules'))

    def append(self, name: str, text: str) -> None:
        """Takes a probe, or takes one away, as kprobe_events does."""
        if not name.endswith('/kprobe_events'):
            super().append(name, text)
            return
        self.log.append(text.rstrip('\n'))
        if text.startswith('-:'):
            self._remove(text[2:].strip())
        else:
            self._add(text.split()[0].split(':')[1], text)

    def _add(self, probe: str, text: str) -> None:
        where = text.split()[1]
        if not (':' in where or where.startswith('_stext+') or re.search(rf' {re.escape(where)}[\t\n]', self.read('/proc/kallsyms'))):
            raise OSError(errno.ENOENT, os.strerror(errno.ENOENT))
        self.file(TRACEFS + '/kprobe_events', self.read(TRACEFS + '/kprobe_events') + text)
        for instance in self.listed(TRACEFS + '/instances'):
            self.file(f'{TRACEFS}/instances/{instance}/events/{probe}/enable', '0')

    def _remove(self, probe: str) -> None:
        places = [f'{TRACEFS}/instances/{name}/events' for name in self.listed(TRACEFS + '/instances')]
        if any(self.read(f'{place}/{probe}/enable') == '1' for place in places):
            raise OSError(errno.EBUSY, os.strerror(errno.EBUSY))
        lines = self.read(TRACEFS + '/kprobe_events').splitlines(True)
        self.file(TRACEFS + '/kprobe_events', ''.join(line for line in lines if f':{probe} ' not in line + ' '))
        for place in places:
            shutil.rmtree(self.path(f'{place}/{probe}'), ignore_errors=True)

    def put(self, name: str, text: str) -> None:
        """Writes a control file; the switch of all events of an instance switches each."""
        super().put(name, text)
        if name.endswith('/tracing_on') and text == '1':
            for action in self.when_on:
                action()
        if name.endswith('/events/enable'):
            for each in self.glob(name[:-len('enable')] + '*/*/enable'):
                super().put(each, text)

    def make_folder(self, name: str) -> None:
        """Makes an instance with its files."""
        super().make_folder(name)
        for each in ('trace', 'tracing_on', 'buffer_size_kb', 'trace_clock', 'trace_pipe', 'trace_marker', 'events/enable',
                     'events/lpt_live/enable'):
            self.file(f'{name}/{each}', '')
        for event in self.glob(TRACEFS + '/events/*/*'):
            self.file(f'{name}/events/{"/".join(event.split("/")[-2:])}/enable', '0')
        self.file(f'{name}/per_cpu/cpu0/stats', 'entries: 5\noverrun: 0\ncommit overrun: 0\ndropped events: 0\n')

    def remove_folder(self, name: str) -> None:
        """Removes an instance, if nothing of it is in use."""
        if any(self.read(each) == '1' for each in self.glob(name + '/events/*/*/enable')):
            raise OSError(errno.EBUSY, os.strerror(errno.EBUSY))
        shutil.rmtree(self.path(name))

    def is_clean(self) -> bool:
        """Whether no probe and no instance is there."""
        return not self.read(TRACEFS + '/kprobe_events') and not self.listed(TRACEFS + '/instances')
