"""Addresses of the kernel's functions and other names of theirs, from /proc/kallsyms.

Its text has some ten million bytes; it is searched as it is, since a table of all names takes seconds to build on a
slow machine, and a stuck transition may be over by then.
"""
from typing import Dict, Iterator, List, NamedTuple


class Symbol(NamedTuple):
    """One place of a name; `module` is empty for the kernel itself."""
    address: int
    module: str


class Symbols:
    """The text of /proc/kallsyms."""

    def __init__(self, text: bytes) -> None:
        self.text = text
        self.known: Dict[str, List[Symbol]] = {}

    def places(self, name: str) -> List[Symbol]:
        """Each place that has the name: several functions of the kernel may share it."""
        if name not in self.known:
            self.known[name] = sorted(self._places(name)) if name else []
        return self.known[name]

    def _places(self, name: str) -> Iterator[Symbol]:
        for end in (b'\n', b'\t'):
            wanted, at = b' ' + name.encode() + end, -1
            while True:
                at = self.text.find(wanted, at + 1)
                if at < 0:
                    break
                begin = self.text.rfind(b'\n', 0, at) + 1
                stop = self.text.find(b'\n', at + len(wanted) - 1)
                module = self.text[at:stop].partition(b'\t[')[2].rstrip(b']').decode()
                yield Symbol(int(self.text[begin:at].split()[0], 16), module)

    def has(self, name: str) -> bool:
        """Whether the kernel has the name."""
        return bool(self.places(name))

    def readable(self, name: str) -> bool:
        """Whether addresses are shown: without root, or with kptr_restrict, all are 0."""
        return any(place.address for place in self.places(name))

    def others(self, place: Symbol, name: str) -> List[str]:
        """Further names of an address: a stack shows one of them, and it need not be the patch's."""
        found, wanted, at = [], b'%016x ' % place.address, -1
        while place.address:
            at = self.text.find(wanted, at + 1)
            if at < 0:
                break
            if at and self.text[at - 1:at] != b'\n':
                continue
            other = self.text[at + 19:self.text.find(b'\n', at)].split(b'\t')[0].decode()
            if other != name:
                found.append(other)
        return found
