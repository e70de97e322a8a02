"""The functions of a recording: which symbol an entry of a stack or a probe stands for, and in which patch."""
import re
from typing import Any, Counter, Dict, List, NamedTuple, Optional, Sequence, Tuple

from ..errors import Refused

PATCH_IN_LIST = re.compile(r': m(\d+)_\d+_\d+_\d+: \(\S+\) mod="([^"]+)"')
PAIR_IN_LIST = re.compile(r' o\d+="([^"]+)" n\d+=(\S+?)\+0x0/0x[0-9a-f]+(?: \[(\S+)\])?')
ENTRY = re.compile(r'(\S+?)(?: \[(\S+)\])?')


class Function(NamedTuple):
    """A function of the trace: its symbol, and the patch whose version it is; None of the old one."""
    symbol: str
    patch: Optional[str]


class Functions:
    """`of_patch`: the symbols of each patch; `of_probe`: by the number of an entry probe; `load_order`: the patches as
    the kernel's list had them, the lowest first; `versions_known`: whether a call's version can be told."""

    def __init__(self, meta: Dict[str, Any], records: Sequence[str], log: Counter[str]) -> None:
        self.meta = meta
        self.log = log
        self.entries: Dict[Tuple[str, str], Function] = {}      # (name, module or '') as a stack shows them
        self.of_probe: Dict[int, Function] = {}
        self.of_patch: Dict[str, List[str]] = {}
        self.load_order: List[str] = []
        self.replaced = {(module, new): old for module, pairs in meta['modules'].items() for old, new in pairs}
        self.read_list(records)
        self.plain: Dict[str, List[Dict[str, Any]]] = {}
        for function in meta['functions'].values():
            if function['side'] == 'old':
                self.plain.setdefault(function['name'], []).append(function)
        self.name_functions()
        self.name_patches()
        self.versions_known = bool(meta['modules']) and all(patch in meta['modules'] for patch in self.of_patch)

    def read_list(self, records: Sequence[str]) -> None:
        """Reads what the recorder found in the kernel's list of patches: a probe that is on for one read of
        /proc/self/patch_state tells which new function stands for which old one, and the patches' order."""
        height: Dict[str, int] = {}
        for text in records:
            match = PATCH_IN_LIST.search(text)
            if not match:
                continue
            height.setdefault(match[2], int(match[1]))
            for old, new, module in PAIR_IN_LIST.findall(text):
                self.replaced[module or match[2], new] = old
        self.load_order = sorted(height, key=lambda patch: height[patch])

    def symbol(self, function: Dict[str, Any]) -> str:
        """A function's name in the trace: with its object where several objects have one of this name."""
        name = str(function['name'])
        return name if len(self.plain[name]) == 1 else f'{function["object"]}:{name}'

    def name_functions(self) -> None:
        """Fills `entries` and `of_probe`."""
        for function in self.meta['functions'].values():
            name, owner = function['name'], function['object']
            if function['side'] == 'old':
                old = Function(self.symbol(function), None)
                self.of_probe[function['n']] = old
                # Other names of the same place: pause(2) is __x64_sys_pause for livepatch, __do_sys_pause on a stack.
                for shown in [name, *function.get('aliases', [])]:
                    self.entries[shown, '' if owner == 'vmlinux' else owner] = old
            elif (owner, name) in self.replaced:
                self.of_probe[function['n']] = Function(self.replaced[owner, name], owner)
        for (module, new), replaced in self.replaced.items():
            self.entries[new, module] = Function(replaced, module)

    def name_patches(self) -> None:
        """Fills `of_patch` from /sys/kernel/livepatch, else from the modules' files."""
        for patch, shown in [*self.meta['before'].items(), *self.meta['after'].items()]:
            self.of_patch[patch] = [self.symbol(function) for owner, name, _ in shown['functions']
                                    for function in self.plain.get(name, []) if function['object'] == owner]
        for module, pairs in self.meta['modules'].items():
            self.of_patch.setdefault(module, [old for old, _ in pairs])

    def on_stack(self, entry: str) -> Optional[Function]:
        """The function of a stack's entry, `name` or `name [module]`, if it is one of these."""
        match = ENTRY.fullmatch(entry)
        if match is None:
            raise Refused(f'no entry of a stack: {entry!r}')
        name, module = match[1], match[2] or ''
        if (name, module) in self.entries:
            return self.entries[name, module]
        # A new function that neither a file nor the kernel's list named: by the likeness of its name, if one alone is like it.
        like = [symbol for symbol in self.of_patch.get(module, ())
                if symbol.split(':')[-1].strip('_') in name or name == symbol]
        if len(like) != 1:
            return None
        self.log['new functions told by likeness of names'] += 1
        return Function(like[0], module)

    def frames(self, stack: Optional[Sequence[str]]) -> List[Function]:
        """The functions of a stack as /proc shows it, the oldest first."""
        found = [self.on_stack(entry) for entry in reversed(stack or [])]
        return [function for function in found if function is not None]
