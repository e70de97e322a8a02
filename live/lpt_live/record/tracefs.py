"""An instance of tracefs for us alone, with our probes; all of it goes away again, however the recording ends.

The instance's folder is locked while a recorder lives.  A recorder that was killed outright can take nothing away,
but its lock is gone with it: whoever finds the folder unlocked knows that what is there was left behind.
"""
import fcntl
import glob
import os
import re
from typing import Dict, List, Optional

from ..errors import NotPossible
from .probes import GROUP, Probe, removal
from .system import System


class Busy(NotPossible):
    """Another recorder is at work."""


def left_behind(system: System, tracefs: str) -> List[str]:
    """Our probes and our instance, as they stand in this kernel now."""
    probes = re.findall(rf'^[pr]\d*:{GROUP}/(\S+)', system.read(f'{tracefs}/kprobe_events'), re.M)
    instance = [f'{tracefs}/instances/{GROUP}'] if system.exists(f'{tracefs}/instances/{GROUP}') else []
    return [f'probe {name}' for name in probes] + instance


def lock(system: System, tracefs: str) -> Optional[int]:
    """Locks the instance's folder; None where there is none, Busy where another recorder holds it."""
    try:
        folder = os.open(system.path(f'{tracefs}/instances/{GROUP}'), os.O_RDONLY | os.O_DIRECTORY)
    except FileNotFoundError:
        return None
    try:
        fcntl.flock(folder, fcntl.LOCK_EX | fcntl.LOCK_NB)
    except OSError:
        os.close(folder)
        raise Busy('another recorder is at work: its instance is locked') from None
    return folder


def at_work(system: System, tracefs: str) -> bool:
    """Whether a recorder is at work now: what stands in the kernel then is its own."""
    try:
        held = lock(system, tracefs)
    except Busy:
        return True
    if held is not None:
        os.close(held)
    return False


def clear(system: System, tracefs: str) -> List[str]:
    """Takes away what a killed recorder left; what it was."""
    found = left_behind(system, tracefs)
    held = lock(system, tracefs)
    if found:
        take_away(system, tracefs)
    if held is not None:
        os.close(held)
    still = left_behind(system, tracefs)
    if still:
        raise NotPossible(f'left by an earlier recorder, and can\'t be taken away: {", ".join(still)}')
    return found


def take_away(system: System, tracefs: str) -> List[str]:
    """Switches our events off, takes our probes and our instance away; what stayed, and why."""
    stays, instance = [], f'{tracefs}/instances/{GROUP}'
    if system.exists(instance):
        for switch in ('tracing_on', 'events/enable'):          # a probe that is in use can't be taken away
            try:
                system.put(f'{instance}/{switch}', '0')
            except OSError as fault:
                stays.append(f'{switch}: {fault.strerror}')
    for found in left_behind(system, tracefs):
        name = found[len('probe '):] if found.startswith('probe ') else ''
        try:
            if name:
                system.append(f'{tracefs}/kprobe_events', removal(name) + '\n')
            else:
                system.remove_folder(found)
        except OSError as fault:
            stays.append(f'{found}: {fault.strerror}')
    return stays


class Instance:
    """Our instance while it stands."""

    def __init__(self, system: System, tracefs: str, kilobytes: int) -> None:
        self.system, self.tracefs = system, tracefs
        self.folder = f'{tracefs}/instances/{GROUP}'
        self.probes: List[str] = []
        self.refused: List[str] = []
        self.pipe = self.marker = -1
        system.make_folder(self.folder)
        self.held = lock(system, tracefs)
        try:
            self.put('tracing_on', '0')
            self.put('buffer_size_kb', str(kilobytes))
            # `counter` is one atomic number for all CPUs, and order is all that matters: `local` isn't ordered between
            # CPUs, `global` has ties.  It tells no time; marks do.
            self.put('trace_clock', 'counter')
        except OSError:
            self.close()
            raise

    def put(self, name: str, text: str) -> None:
        """Writes a control file of the instance."""
        self.system.put(f'{self.folder}/{name}', text)

    def set_probe(self, probe: Probe) -> bool:
        """Sets a probe, not yet on; a refusal is noted."""
        try:
            self.system.append(f'{self.tracefs}/kprobe_events', probe.command() + '\n')
        except OSError as fault:
            self.refused.append(f'{probe.command()}: {fault.strerror}')
            return False
        self.probes.append(probe.name)
        return True

    def switch(self, name: str, on: bool) -> None:
        """Switches one of our probes on or off."""
        self.put(f'events/{GROUP}/{name}/enable', '1' if on else '0')

    def open(self, events: List[str]) -> None:
        """Switches the events on, opens the pipe of records and the file for marks."""
        for event in events:
            self.put(f'events/{event}/enable', '1')
        path = self.system.path(self.folder)
        self.marker = os.open(path + '/trace_marker', os.O_WRONLY)
        self.pipe = os.open(path + '/trace_pipe', os.O_RDONLY | os.O_NONBLOCK)

    def mark(self, text: str) -> None:
        """Writes a line among the records."""
        os.write(self.marker, text.encode())

    def records(self, most: int) -> bytes:
        """Up to so many pieces of what the kernel has recorded; the empty text if there is nothing now."""
        pieces: List[bytes] = []
        while len(pieces) < most:
            try:
                piece = os.read(self.pipe, 1 << 16)
            except BlockingIOError:
                break
            if not piece:
                break
            pieces.append(piece)
        return b''.join(pieces)

    def statistics(self) -> Dict[str, int]:
        """What the kernel counted over all CPUs; `overrun` and `dropped events` are records that are lost."""
        counts: Dict[str, int] = {}
        for path in glob.glob(self.system.path(self.folder) + '/per_cpu/cpu*/stats'):
            for line in self.system.read(path[len(self.system.root):]).splitlines():
                key, _, value = line.partition(': ')
                if key in ('overrun', 'commit overrun', 'dropped events', 'entries'):
                    counts[key] = counts.get(key, 0) + int(value)
        return counts

    def missed(self) -> Dict[str, int]:
        """Probe -> how often it could not be taken."""
        found = {}
        for line in self.system.read(self.tracefs + '/kprobe_profile').splitlines():
            words = line.split()
            if len(words) == 3 and words[0] in self.probes and int(words[2]):
                found[words[0]] = int(words[2])
        return found

    def close(self) -> List[str]:
        """Takes all of it away; what stayed, and why."""
        for file in (self.pipe, self.marker):
            if file >= 0:
                os.close(file)
        self.pipe = self.marker = -1
        stays = take_away(self.system, self.tracefs)
        if self.held is not None:
            os.close(self.held)
            self.held = None
        return stays
