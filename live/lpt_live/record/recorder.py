"""The recording itself: probes set, looks taken, the transition waited for, all of it taken away and written."""
import json
import os
import signal
import tempfile
from typing import Any, Dict, IO, List, NamedTuple, Set, Tuple

from .. import recording
from ..errors import NotPossible, Refused
from . import module_file, patch_memory, patches, probes
from .functions import Functions, named
from .kernel import EXIT, FORK, SWITCH, SYSTEM_CALLS, Kernel
from .kernel_log import livepatch_messages
from .looks import Looks, Row
from .symbols import Symbols
from .system import System
from .tell import tell
from .tracefs import Instance

LEAST, NO_SYSCALLS, ALL = 'least', 'no-syscalls', 'all'
PAUSE = 0.1             # seconds between marks; times between two marks are interpolated
AFTER = 0.5             # seconds to go on after the completion, for what comes right after it
TRIES = 20              # to begin between two changes of the patches
TELL = 10.0             # seconds between lines of progress
ENDINGS = (signal.SIGINT, signal.SIGTERM, signal.SIGHUP)


class Wanted(NamedTuple):
    """What is to be recorded."""
    output: str
    modules: List[str]
    functions: List[str]
    detail: str = LEAST
    seconds: float = 0.0
    until: str = 'complete'
    sample: float = 1.0
    kilobytes: int = 16384

    def events(self, kernel: Kernel) -> List[str]:
        """The trace events: births and ends always, switches and system calls for whoever asks."""
        switches = [SWITCH] if self.detail != LEAST and kernel.event(SWITCH) else []
        calls = SYSTEM_CALLS if self.detail == ALL and all(map(kernel.event, SYSTEM_CALLS)) else []
        return switches + [FORK, EXIT] + calls


class Recorder:
    """One recording, from the first probe to the file."""

    def __init__(self, system: System, kernel: Kernel, wanted: Wanted) -> None:
        self.system, self.kernel, self.wanted = system, kernel, wanted
        # Read before anything is set: a module that can't be read must change nothing.
        self.modules = [module_file.read(path) for path in wanted.modules]
        self.named = [named(kernel, word) for word in wanted.functions]
        self.once: Set[str] = set()         # probes of patch_memory, which are never on but for one read
        self.ended_by = 0
        self.raw, self.rows = self._spool(), self._spool()
        for each in ENDINGS:                # from here on there is something to take away
            if (each, signal.getsignal(each)) != (signal.SIGHUP, signal.SIG_IGN):       # nohup asks to go on
                signal.signal(each, self._end)
        try:
            self.instance = Instance(system, kernel.tracefs, wanted.kilobytes)
        except OSError:
            self.raw.close()
            self.rows.close()
            raise
        self.looks = Looks(system, self.instance.mark, self._keep, kernel.stacks, wanted.detail == LEAST)
        self.functions = Functions(kernel, self.instance, wanted.detail != LEAST)
        self.before: List[patches.Patch] = []
        self.known: Set[str] = set()        # the patches whose functions have been taken in

    def _spool(self) -> IO[bytes]:
        """Where records and looks wait for the end, beside the output but without a name: a killed recorder leaves no file,
        and a transition that is stuck for hours fills no memory."""
        folder = os.path.dirname(os.path.abspath(self.wanted.output))
        try:
            return tempfile.TemporaryFile(dir=folder)
        except OSError as fault:
            raise Refused(f'{folder}: {fault.strerror}') from None

    def run(self) -> List[str]:
        """Records; what is to be said of it."""
        with self.raw, self.rows:
            try:
                self._begin()
                self._record()
                meta, told = self._finish()
            finally:
                for each in self.instance.close():
                    tell(f'stays in the kernel: {each}')
            self._write(meta)
        return told

    def _keep(self, row: Row) -> None:
        self.rows.write(json.dumps(row, separators=(',', ':')).encode() + b'\n')

    def _end(self, number: int, _: object) -> None:
        self.ended_by = number

    def _begin(self) -> None:
        for probe in probes.of_livepatch(self.kernel):
            self.instance.set_probe(probe)
        self.functions.add_patches(patches.loaded(self.system))
        for home, name in self.named:
            self.functions.add(home, name)
        for module in self.modules:
            self.functions.add_module(module)
        if not self.instance.probes:
            raise NotPossible('no probe could be set: ' + '; '.join(self.instance.refused))
        self.events = self.wanted.events(self.kernel)
        self.instance.open(self.events)
        self._switch_probes()
        self._switch_on()
        self.looks.tick()
        self._read_patches()
        self.known = {patch.name for patch in self.before}
        self.looks.snapshot()
        state = patches.in_motion(self.before)
        tell(f'recording ({len(self.functions.table)} functions, {len(self.instance.probes)} probes); ' +
            (f'{state.name} is in transition' if state else 'no patch is in transition yet'))

    def _switch_on(self) -> None:
        """Begins to record, with the patches as they are at that moment: a transition that opens or ends just then would be
        told neither by them nor by the records, or by both."""
        for _ in range(TRIES):
            self.before = patches.loaded(self.system)
            self.instance.put('trace', '')
            self.instance.put('tracing_on', '1')
            if patches.loaded(self.system) == self.before:
                return
            self.instance.put('tracing_on', '0')
            self.functions.add_patches(patches.loaded(self.system))
            self._switch_probes()
        raise NotPossible(f'patches came or went while the recording was to begin, {TRIES} times')

    def _switch_probes(self) -> None:
        """Switches every probe on; those that read the patches must not fire at other programs' reads."""
        for name in self.instance.probes:
            if name not in self.once:
                self.instance.switch(name, True)

    def _read_patches(self) -> None:
        found = []
        for probe in patch_memory.probes(self.kernel, patches.loaded(self.system), self.looks.number):
            self.once.add(probe.name)
            if self.instance.set_probe(probe):
                found.append(probe.name)
                self.instance.switch(probe.name, True)
        self.system.read('/proc/self/patch_state')
        for name in found:      # off, but taken away at the end only: the kernel empties the buffer when a probe goes
            self.instance.switch(name, False)

    def _record(self) -> None:
        """Until the end that was asked for, or a signal."""
        begun = told = self.system.now()
        sampled = begun - self.wanted.sample        # the first look comes at once: the transition may be over soon
        seen, over, waiting = patches.in_motion(self.before) is not None, None, -1
        while not self.ended_by:
            self.system.pause(PAUSE)
            self.looks.tick()
            self.raw.write(self.instance.records(400))
            self._take_new_patches()
            now, moving = self.system.now(), patches.in_transition(self.system)
            seen = seen or moving
            # Seldom, once a transition has been stuck for long: a look reads a file of every task of the machine.
            if moving and now - sampled >= max(self.wanted.sample, (now - begun) / 100):
                sampled, waiting = now, self.looks.sample()
            if now - told >= TELL:
                told = now
                tell(f'{now - begun:.0f} s' + (f', {waiting} tasks wait' if moving and waiting >= 0 else ''))
            over = (over or now) if seen and not moving and self.wanted.until == 'complete' else None
            if (over and now - over > AFTER) or (self.wanted.seconds and now - begun > self.wanted.seconds):
                return

    def _take_new_patches(self) -> None:
        """Of a patch that wasn't there before: its functions, and its place among the patches."""
        names = {name for name in self.system.listed(patches.LIVEPATCH) if '.' not in name}
        self.known &= names                         # one that is loaded again may be another
        if names == self.known:
            return
        found = patches.loaded(self.system)
        if all(patch.enabled or patch.moving for patch in found if patch.name not in self.known):
            self.known |= names                     # else it is on its way: sysfs has it before the kernel's list does
            self.functions.add_patches(found)
            self._switch_probes()
            self._read_patches()

    def _finish(self) -> Tuple[Dict[str, Any], List[str]]:
        self.looks.tick()
        self.instance.put('tracing_on', '0')
        self.raw.write(self.instance.records(1 << 30))
        counts, missed = self.instance.statistics(), self.instance.missed()
        self.kernel.symbols = Symbols(self.system.bytes_of('/proc/kallsyms') or b'')    # with the modules loaded meanwhile
        self.functions.name_others()
        meta = {
            'uname': list(os.uname()), 'cmdline': self.system.read('/proc/cmdline').strip(), 'cpus': os.cpu_count(),
            'clock': 'counter', 'events': self.events, 'probes': self.instance.probes, 'refused': self.instance.refused,
            'functions': self.functions.table, 'modules': {module.name: module.functions for module in self.modules},
            'before': {patch.name: patch.record() for patch in self.before},
            'after': {patch.name: patch.record() for patch in patches.loaded(self.system)},
            'me': os.getpid(), 'kmsg': livepatch_messages(self.system), 'stats': counts, 'missed': missed,
            'lacks': self.kernel.lacks, 'notes': self.kernel.notes, 'detail': self.wanted.detail}
        return meta, self._told(counts, missed)

    def _told(self, counts: Dict[str, int], missed: Dict[str, int]) -> List[str]:
        lost = sum(counts.get(key, 0) for key in ('overrun', 'dropped events', 'commit overrun'))
        told = ['missing: ' + each for each in self.instance.refused + self.kernel.notes]
        if lost:
            told.append(f'LOST {lost} records, so this can\'t be converted: record less, or with a larger --buffer')
        if missed:
            told.append(f'missed: {", ".join(f"{name} {count} times" for name, count in missed.items())}')
        if not lost and not missed:
            told.append('no record was lost')
        return told

    def _write(self, meta: Dict[str, Any]) -> None:
        self.raw.seek(0)
        self.rows.seek(0)
        with recording.Writer(self.wanted.output) as out:
            out.meta(meta)
            for row in self.rows:
                out.proc(json.loads(row))
            out.records(line.decode('utf-8', 'replace') for line in self.raw)
