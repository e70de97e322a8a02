"""The patched functions of a recording: which they are, and their probes."""
from typing import Any, Dict, List, Tuple

from ..errors import Refused
from . import module_file, patches, probes
from .kernel import Kernel
from .tracefs import Instance


def named(kernel: Kernel, word: str) -> Tuple[str, str]:
    """Module and name of a --function: NAME is one of the kernel's, else of the one module that has it.  A module that isn't
    loaded yet has to be named."""
    home, _, name = word.rpartition(':')
    homes = {place.module for place in kernel.symbols.places(name)}
    if home or '' in homes:
        return home, name
    if len(homes) != 1:
        which = f'the modules {", ".join(sorted(homes))} have' if homes else 'neither the kernel nor a loaded module has'
        raise Refused(f'--function {word}: {which} a function of this name; MODULE:NAME says which is meant')
    return homes.pop(), name


class Functions:
    """The patched functions, old and new, with their probes."""

    def __init__(self, kernel: Kernel, instance: Instance, entries: bool) -> None:
        self.kernel, self.instance, self.entries = kernel, instance, entries
        self.table: Dict[str, Dict[str, Any]] = {}

    def add(self, home: str, name: str, position: int = 0, side: str = 'old') -> None:
        """Takes a function in, once; its entry gets a probe where calls are recorded."""
        home = '' if home == patches.VMLINUX else home
        key = f'{home}:{name}' if home else name
        if key in self.table:
            return
        places = [place for place in self.kernel.symbols.places(name) if place.module == home]
        probe = probes.of_function(self.kernel, len(self.table), key, places, position)
        if probe is None:
            self.instance.refused.append(f'{key}: {len(places)} functions have this name, so none is probed')
        probed = bool(probe) and self.entries and self.instance.set_probe(probe) if probe else False
        self.table[key] = {'n': len(self.table), 'name': name, 'object': home or patches.VMLINUX, 'side': side,
                           'probed': probed, 'loaded': bool(places)}

    def add_patches(self, loaded: List[patches.Patch]) -> None:
        """The functions that sysfs names."""
        for patch in loaded:
            for function in patch.functions:
                self.add(function.object, function.name, function.position)

    def add_module(self, module: module_file.LivepatchModule) -> None:
        """Those of a module's file; the module isn't loaded yet, and its probes wait for it."""
        for old, new in module.functions:
            places = self.kernel.symbols.places(old)
            self.add(places[0].module if places else '', old)
            self.add(module.name, new, side='new')

    def name_others(self) -> None:
        """Further names of the old functions' addresses, by the kernel's symbols as they are at the end."""
        for function in self.table.values():
            for place in self.kernel.symbols.places(function['name']) if function['side'] == 'old' else []:
                if (place.module or patches.VMLINUX) == function['object']:
                    others = self.kernel.symbols.others(place, function['name'])
                    if others:
                        function['aliases'] = function.get('aliases', []) + others
