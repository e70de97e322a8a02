"""Which new function stands for which old one, and the order of the patches: read from the kernel's memory.

sysfs tells neither.  A probe can follow pointers: one is set at the function that answers a read of
/proc/PID/patch_state, is on for one such read of ours, and fetches from the kernel's list of patches.
"""
from typing import Iterator, List

from .btf import Btf
from .kernel import Kernel
from .patches import Patch
from .probes import Probe

AT = 'proc_pid_patch_state'
LIST = 'klp_patches'
EACH = 10           # functions a probe fetches: it has room for 128 values, and a line for some four thousand signs


def _follow(offset: int, what: str) -> str:
    return f'{offset:+d}({what})'


def available(kernel: Kernel) -> bool:
    """Whether the two names that this needs are there."""
    return kernel.symbols.has(AT) and kernel.symbols.has(LIST)


def probes(kernel: Kernel, patches: List[Patch], label: int) -> List[Probe]:
    """The probes that read the patches; `label` tells them from those of an earlier reading."""
    btf, found, node = kernel.types(), [], f'@{LIST}'
    if not patches or not available(kernel):
        return []
    objects = max(len({function.object for function in patch.functions}) for patch in patches)
    most = max(len(patch.functions) for patch in patches)
    for level in range(len(patches)):
        for each in range(objects):
            for first in range(0, most, EACH):
                found.append(Probe(f'm{level}_{each}_{first}_{label}', AT,
                                   ' '.join(_fetches(btf, node, each, range(first, min(most, first + EACH))))))
        node = _follow(0, node)         # the next patch of the list
    return found


def _fetches(btf: Btf, node: str, each: int, functions: range) -> Iterator[str]:
    """What is read of one object of one patch: the patch's module, the object's name, pairs of functions."""
    links, size = btf.offset('klp_patch', 'list'), btf.size('klp_func')
    base = each * btf.size('klp_object')
    objects = _follow(btf.offset('klp_patch', 'objs') - links, node)
    table = _follow(base + btf.offset('klp_object', 'funcs'), objects)
    module = _follow(btf.offset('klp_patch', 'mod') - links, node)
    yield f'mod={_follow(btf.offset("module", "name"), module)}:string'
    yield f'obj={_follow(0, _follow(base + btf.offset("klp_object", "name"), objects))}:string'
    for k in functions:
        yield f'o{k}={_follow(0, _follow(k * size + btf.offset("klp_func", "old_name"), table))}:string'
        yield f'n{k}={_follow(k * size + btf.offset("klp_func", "new_func"), table)}:symbol'
