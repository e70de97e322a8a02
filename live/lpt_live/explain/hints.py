"""What would help a task that waits: what ends its sleep, by the functions on its stack, and whether a signal does."""
import re
from typing import Dict, Optional, Sequence

# Functions in which tasks sleep long, and what lets them go on.  The innermost one on the stack that stands here counts.
ENDS: Dict[str, str] = {
    'pipe_read': 'data or the end of file on its pipe', 'pipe_write': 'a reader that empties its pipe',
    'pause': 'any signal that it handles', 'sigsuspend': 'any signal that it handles',
    'do_sigtimedwait': 'a signal that it waits for, or its timeout',
    'ep_poll': 'an event of its epoll set, or its timeout', 'do_epoll_wait': 'an event of its epoll set, or its timeout',
    'do_sys_poll': 'an event of its files, or its timeout', 'do_poll': 'an event of its files, or its timeout',
    'do_select': 'an event of its files, or its timeout', 'futex_wait': 'a wake-up of its lock',
    'futex_wait_queue': 'a wake-up of its lock', 'do_wait': 'the end of a child', 'do_nanosleep': 'the end of its sleep',
    'inet_csk_accept': 'a connection', 'unix_accept': 'a connection', 'unix_stream_read_generic': 'data on its socket',
    'tcp_recvmsg': 'data on its socket', 'tcp_recvmsg_locked': 'data on its socket', 'sk_wait_data': 'data on its socket',
    'n_tty_read': 'input on its terminal', 'inotify_read': 'an event of its inotify set', 'do_msgrcv': 'a message in its queue',
    'eventfd_read': 'a write to its eventfd', 'signalfd_dequeue': 'a signal that it waits for', 'timerfd_read': 'its timer',
    'do_semtimedop': 'its semaphore', '__do_semtimedop': 'its semaphore', 'locks_lock_inode_wait': 'the release of a file lock',
    'do_signal_stop': 'kill -CONT', 'ptrace_stop': 'the debugger that stopped it',
    'rpc_wait_bit_killable': 'an answer of its NFS server'}


def plain(entry: str) -> str:
    """A stack's entry or a symbol as the function is called in the source: without its module, parts and call wrappers."""
    name = re.sub(r'\.(part|isra|constprop|cold)(\.\d+)?', '', entry.split(' ')[0].split('+')[0])
    return re.sub(r'^(__x64_sys_|__ia32_sys_|__arm64_sys_|__s390x_sys_|__do_sys_|__se_sys_|ksys_|sys_)', '', name)


def what_ends(function: str, stack: Sequence[str], patch: str = '') -> Optional[str]:
    """What ends the sleep: the innermost function known, down to the patched one, whose new version is in the patch's module."""
    for entry in [*stack, function]:
        if plain(entry) in ENDS:
            return ENDS[plain(entry)]
        if plain(entry) == plain(function) or patch and entry.endswith(f' [{patch}]'):
            break
    return ENDS.get(plain(function))


def by_signal(state: str, pid: int) -> str:
    """What a signal would do, by the state that /proc shows."""
    return {'D': '; its sleep is uninterruptible, signals don\'t help',
            'S': f'; or kill -STOP {pid}, then kill -CONT {pid} (after 15 walks the kernel sends a signal without content '
                 'itself)',
            'R': '; it is runnable, so this may be a matter of time', 'T': f'; it is stopped: kill -CONT {pid}',
            't': '; it is stopped by a debugger'}.get(state, '')
