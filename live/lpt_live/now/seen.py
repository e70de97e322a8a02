"""What /proc and /sys show at one moment, as a recording of that moment alone.

So the converter makes the trace of it, by the rules that it has for a transition that was under way before a recording.
"""
import os
import time
from typing import Any, Dict, List, NamedTuple, Optional

from ..convert import Converted, converted
from ..record import patches
from ..record.kernel import EXIT, FORK
from ..record.kernel_log import livepatch_messages
from ..record.looks import Looks, Row
from ..record.patches import Patch
from ..record.symbols import Symbols
from ..record.system import System
from ..recording import Recording


class Seen(NamedTuple):
    """One look at all tasks: the patches, and a row for each task."""
    patches: List[Patch]
    rows: List[Row]
    marks: List[str]
    functions: Dict[str, Dict[str, Any]]
    release: List[str]
    log: List[List[Any]]

    @property
    def moving(self) -> Optional[Patch]:
        """The patch in transition."""
        return patches.in_motion(self.patches)

    def tasks(self) -> List[Row]:
        """Every task that was there."""
        return [task for row in self.rows for task in row['tasks']]

    def waiting(self) -> List[Row]:
        """The tasks that the kernel hasn't switched yet."""
        goal = '1' if self.moving and self.moving.enabled else '0'
        return [task for task in self.tasks() if task['ps'] in ('0', '1') and task['ps'] != goal]

    def recording(self) -> Recording:
        """A recording that begins and ends at this moment."""
        state = {patch.name: patch.record() for patch in self.patches}
        meta = {'uname': self.release, 'clock': 'counter', 'events': [FORK, EXIT], 'probes': [], 'refused': [],
                'functions': self.functions, 'modules': {}, 'before': state, 'after': state, 'me': os.getpid(),
                'kmsg': self.log, 'stats': {}, 'missed': {}, 'lacks': [], 'notes': []}
        lines = [f'now-{os.getpid()} [000] ..... {place}: tracing_mark_write: {mark}'
                 for place, mark in enumerate(self.marks, 1)]
        return Recording(meta, self.rows, lines)

    def converted(self) -> Converted:
        """The trace of this moment, with names."""
        return converted(self.recording())


def release_of(system: System) -> List[str]:
    """What uname says; of a picture of a machine, what its /proc/version says."""
    words = system.read('/proc/version').split()
    uname = list(os.uname()[:4]) + [system.machine()]
    if system.root and len(words) > 2:
        uname[2], uname[3] = words[2], ' '.join(words[3:])
    return uname


def functions_of(system: System, found: List[Patch]) -> Dict[str, Dict[str, Any]]:
    """The functions that the patches replace, with the other names by which a stack may show them."""
    symbols = Symbols(system.bytes_of('/proc/kallsyms') or b'')
    table: Dict[str, Dict[str, Any]] = {}
    for function in (function for patch in found for function in patch.functions):
        home = '' if function.object == patches.VMLINUX else function.object
        key = f'{home}:{function.name}' if home else function.name
        places = [place for place in symbols.places(function.name) if place.module == home]
        others = [other for place in places for other in symbols.others(place, function.name)]
        table.setdefault(key, {'n': len(table), 'name': function.name, 'object': function.object, 'side': 'old',
                               'probed': False, 'loaded': bool(places), 'aliases': others})
    return table


def look(system: System) -> Seen:
    """Looks at the patches, and if one is in transition at all tasks.  The recorder of this moment, this program itself,
    isn't among them: it is over before anybody reads of it."""
    found, rows, marks = patches.loaded(system), [], []     # type: ignore[var-annotated]
    looks = Looks(system, marks.append, rows.append, True)
    if patches.in_motion(found):
        looks.mark(f'klprec= {looks.next()} {time.time():.3f}')
        looks.snapshot()
        looks.tick()
    own = os.getpid() if not system.root else 0
    for row in rows:
        row['tasks'] = [task for task in row['tasks'] if task['g'] != own]
    return Seen(found, rows, marks, functions_of(system, found) if rows else {}, release_of(system), livepatch_messages(system))
