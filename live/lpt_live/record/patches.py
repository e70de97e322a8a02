"""The patches that are loaded, from /sys/kernel/livepatch."""
from typing import Any, Dict, List, NamedTuple, Optional, Tuple

from .system import System

LIVEPATCH = '/sys/kernel/livepatch'
VMLINUX = 'vmlinux'         # the object of the kernel's own functions


class Function(NamedTuple):
    """A function that a patch replaces: its object (vmlinux or a module), its name, its place among that name's."""
    object: str
    name: str
    position: int


class Patch(NamedTuple):
    """A patch as sysfs shows it: `enabled` is also the side that a transition goes to.  Newer kernels show too whether
    it replaces all others at once."""
    name: str
    enabled: bool
    moving: bool
    functions: List[Function]
    replaces: bool = False

    def record(self) -> Dict[str, Any]:
        """The patch as a recording has it."""
        shown: Dict[str, Any] = {'enabled': '1' if self.enabled else '0', 'transition': '1' if self.moving else '0',
                                 'functions': [list(function) for function in self.functions]}
        if self.replaces:
            shown['replace'] = '1'
        return shown


def loaded(system: System) -> List[Patch]:
    """Every patch, the lowest first: as newer kernels say it, else in the order in which the modules were loaded."""
    found = []
    modules = [line.split()[0] for line in system.read('/proc/modules').splitlines() if line.strip()][::-1]
    for path in system.glob(LIVEPATCH + '/*/enabled'):
        folder = path[:-len('/enabled')]
        name = folder.rsplit('/', 1)[1]
        height, enabled, moving, replaces = (system.read(f'{folder}/{file}').strip()
                                             for file in ('stack_order', 'enabled', 'transition', 'replace'))
        functions = [_function(place) for place in system.glob(folder + '/*/*,*')]
        order = int(height) if height.isdigit() else modules.index(name) if name in modules else len(modules)
        found.append((order, Patch(name, enabled == '1', moving == '1', functions, replaces == '1')))
    return [patch for _, patch in sorted(found, key=lambda pair: pair[0])]


def _function(folder: str) -> Function:
    parent, name, position = _parts(folder)
    return Function(parent, name, int(position) if position.isdigit() else 0)


def _parts(folder: str) -> Tuple[str, str, str]:
    parent, last = folder.rstrip('/').split('/')[-2:]
    name, _, position = last.rpartition(',')
    return parent, name, position


def in_motion(patches: List[Patch]) -> Optional[Patch]:
    """The patch in transition: the kernel has one at most."""
    return next((patch for patch in patches if patch.moving), None)


def in_transition(system: System) -> bool:
    """Whether any patch is: the cheap question, asked ten times a second."""
    return any(system.read(path).strip() == '1' for path in system.glob(LIVEPATCH + '/*/transition'))
