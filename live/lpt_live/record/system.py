"""The machine's files under /proc, /sys and /dev, below a root: `/`, or in tests a picture of one."""
import glob
import os
import re
import time
from typing import Iterator, List, NamedTuple, Optional, Tuple

ENTRY = re.compile(r'\[<[0-9a-fx]*>\] (\S+?)\+0x[0-9a-f]+/0x[0-9a-f]+(?: \[(\S+)\])?')
PF_KTHREAD = 1 << 21        # in the flags of /proc/PID/stat


class Stat(NamedTuple):
    """What /proc/PID/task/TID/stat says: the state's letter, whether it is a kernel thread, the CPU it was last on."""
    comm: str
    state: str
    kernel_thread: bool
    cpu: int


class System:
    """Reads and writes the kernel's files by their usual paths."""

    def __init__(self, root: str = '/') -> None:
        self.root = root.rstrip('/')

    def path(self, name: str) -> str:
        """Where a file of the machine is."""
        return self.root + name

    def privileged(self) -> bool:
        """Whether probes may be set.  A picture of a machine may be changed by whoever made it."""
        return bool(self.root) or os.geteuid() == 0

    def machine(self) -> str:
        """The kind of processor, as uname says it."""
        return os.uname().machine

    def now(self) -> float:
        """Seconds that only grow: what a recording's waits are counted in."""
        return time.monotonic()

    def pause(self, seconds: float) -> None:
        """Waits."""
        time.sleep(seconds)

    def bytes_of(self, name: str) -> Optional[bytes]:
        """A file's bytes, or None where it can't be read: tasks end while one looks at them."""
        try:
            with open(self.path(name), 'rb') as file:
                return file.read()
        except OSError:
            return None

    def maybe(self, name: str) -> Optional[str]:
        """A file's text, or None where it can't be read."""
        data = self.bytes_of(name)
        return None if data is None else data.decode('utf-8', 'replace')

    def read(self, name: str) -> str:
        """A file's text; the empty text where it can't be read."""
        return self.maybe(name) or ''

    def put(self, name: str, text: str) -> None:
        """Writes a control file.  One write, since the kernel takes each write as a command of its own."""
        self._write(name, text, os.O_TRUNC)

    def append(self, name: str, text: str) -> None:
        """Adds a command to a control file such as kprobe_events, which a truncating write would empty."""
        self._write(name, text, os.O_APPEND)

    def _write(self, name: str, text: str, flag: int) -> None:
        file = os.open(self.path(name), os.O_WRONLY | flag)
        try:
            os.write(file, text.encode())
        finally:
            os.close(file)

    def exists(self, name: str) -> bool:
        """Whether there is such a file or folder."""
        return os.path.exists(self.path(name))

    def make_folder(self, name: str) -> None:
        """Makes a folder, which in tracefs makes an instance."""
        os.mkdir(self.path(name))

    def remove_folder(self, name: str) -> None:
        """Removes a folder, and with it, in tracefs, the instance."""
        os.rmdir(self.path(name))

    def glob(self, pattern: str) -> List[str]:
        """The files that a pattern names, by their usual paths."""
        return sorted(found[len(self.root):] for found in glob.glob(self.path(pattern)))

    def listed(self, name: str) -> List[str]:
        """The names in a folder; none where it isn't there (any more)."""
        try:
            return os.listdir(self.path(name))
        except OSError:
            return []

    def tasks(self) -> Iterator[Tuple[int, int]]:
        """Each thread of each process: (process, thread)."""
        for process in sorted(int(name) for name in self.listed('/proc') if name.isdigit()):
            for thread in sorted(int(name) for name in self.listed(f'/proc/{process}/task') if name.isdigit()):
                yield process, thread

    def stat(self, process: int, thread: int) -> Optional[Stat]:
        """A task's line; None if it is gone.  Its name may hold blanks and brackets: the last bracket ends it."""
        text = self.maybe(f'/proc/{process}/task/{thread}/stat')
        if not text or ')' not in text:
            return None
        end = text.rindex(')')
        rest = text[end + 2:].split()
        return Stat(text[text.index('(') + 1:end], rest[0], bool(int(rest[6]) & PF_KTHREAD), int(rest[36]))

    def patch_state(self, process: int, thread: int) -> Optional[str]:
        """`0`, `1` or `-1`; None if the task is gone."""
        text = self.maybe(f'/proc/{process}/task/{thread}/patch_state')
        return None if text is None else text.strip()

    def stack(self, process: int, thread: int) -> Optional[List[str]]:
        """The functions on a task's stack, the innermost first, those of modules with ` [module]`; None if unknown."""
        text = self.maybe(f'/proc/{process}/task/{thread}/stack')
        if text is None:
            return None
        return [name + (f' [{module}]' if module else '') for name, module in ENTRY.findall(text)]
