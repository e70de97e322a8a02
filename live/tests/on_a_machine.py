"""A machine of files with a patch in transition, on which a recorder can run."""
import contextlib
import io
import os
import signal
import tempfile
import unittest
from typing import Any, Callable, List, Tuple

from fake_kernel import FakeKernel

from lpt_live import recording
from lpt_live.record import record
from lpt_live.record.recorder import Wanted


class Clock:
    """A time that only waiting moves: what is due while someone waits is done on the way, however slow this machine is."""

    def __init__(self) -> None:
        self.time = 0.0
        self.due: List[Tuple[float, Callable[[], None]]] = []

    def now(self) -> float:
        """The time."""
        return self.time

    def pause(self, seconds: float) -> None:
        """Waits."""
        end = self.time + seconds
        while self.due and self.due[0][0] <= end:
            self.time, action = self.due.pop(0)
            action()
        self.time = end

    def after(self, seconds: float, action: Callable[[], None]) -> None:
        """Does something so long from now."""
        self.due.append((self.time + seconds, action))
        self.due.sort(key=lambda each: each[0])


class OnAMachine(unittest.TestCase):
    """A machine with a patch that is in transition; two tasks, one of which waits."""

    def setUp(self) -> None:
        folder = tempfile.TemporaryDirectory()
        self.addCleanup(folder.cleanup)
        self.kernel = FakeKernel(os.path.join(folder.name, 'machine'))
        os.mkdir(self.kernel.root)
        self.kernel.build()
        self.output = os.path.join(folder.name, 'out.rec')
        said = contextlib.redirect_stderr(io.StringIO())
        said.__enter__()
        self.addCleanup(said.__exit__, None, None, None)
        self.clock = Clock()
        self.kernel.now, self.kernel.pause = self.clock.now, self.clock.pause       # type: ignore[method-assign]
        # Signals' handlers belong to the main thread, and the recorder sets its own.
        for each in (signal.SIGINT, signal.SIGTERM, signal.SIGHUP):
            self.addCleanup(signal.signal, each, signal.getsignal(each))

    def stuck(self) -> None:
        """A patch in transition, held open by cat."""
        self.kernel.patch('fix', True, True, ['vmlinux/pipe_read,1'])
        self.kernel.task(1, 'init', 'S', '1', ['do_wait'])
        self.kernel.task(7, 'cat', 'S', '0', ['pipe_read', 'vfs_read'])

    def later(self, seconds: float, action: Any, *words: Any) -> None:
        """Does something so long after the recorder has begun."""
        self.kernel.when_on.append(lambda: self.clock.after(seconds, lambda: action(*words)))

    def completes(self) -> None:
        """The transition is over."""
        self.kernel.patch('fix', True, False, ['vmlinux/pipe_read,1'])

    def wanted(self, **words: Any) -> Wanted:
        return Wanted(self.output, words.pop('modules', []), words.pop('functions', []), **words)

    def record(self, **words: Any) -> recording.Recording:
        """Records, and reads what was written."""
        record(self.kernel, self.wanted(**words))
        return recording.read(self.output)
