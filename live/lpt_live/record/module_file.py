"""The functions that a livepatch module replaces, read from its file before it is loaded.

A `klp_func` begins with two pointers: to the old function's name and to the new function.  In the file both are
relocations, one after the other: the first into a section of strings, the second into one of code.
"""
import re
import struct
from typing import Dict, List, NamedTuple, Optional, Tuple

from ..errors import Refused

SECTION = struct.Struct('<IIQQQQIIQQ')
SYMBOL = struct.Struct('<IBBHQQ')
RELOCATION = struct.Struct('<QQq')
SYMTAB, RELA = 2, 4
EXECUTABLE, STRINGS = 4, 0x20
FUNCTION = 2
R_X86_64_64 = 1             # a pointer; other machines number it otherwise
ABSOLUTE = {62: R_X86_64_64, 183: 257, 22: 22, 21: 38}  # x86-64, arm64, s390, ppc64


class Section(NamedTuple):
    """A section's header."""
    name: int
    kind: int
    flags: int
    address: int
    offset: int
    size: int
    link: int
    info: int
    align: int
    entry: int


class Target(NamedTuple):
    """What a relocation points to: a section, and the place in it."""
    section: int
    place: int


class LivepatchModule(NamedTuple):
    """A module's name, and its pairs of old and new functions."""
    name: str
    functions: List[Tuple[str, str]]


class _File:
    """The parts of an ELF object that are wanted here."""

    def __init__(self, data: bytes) -> None:
        if data[:6] != b'\x7fELF\x02\x01' or struct.unpack_from('<H', data, 16)[0] != 1:
            raise Refused('no relocatable 64-bit little-endian ELF file')
        self.data = data
        self.machine, = struct.unpack_from('<H', data, 18)
        offset, = struct.unpack_from('<Q', data, 0x28)
        count, self.names = struct.unpack_from('<HH', data, 0x3c)
        self.sections = [Section(*SECTION.unpack_from(data, offset + SECTION.size * k)) for k in range(count)]
        table = next((s for s in self.sections if s.kind == SYMTAB), None)
        if table is None:
            raise Refused('it has no table of symbols')
        self.strings = self.sections[table.link].offset
        self.symbols = [SYMBOL.unpack_from(data, table.offset + SYMBOL.size * k)
                        for k in range(table.size // SYMBOL.size)]

    def text(self, at: int) -> str:
        """The string at a place of the file."""
        return self.data[at:self.data.index(b'\0', at)].decode('utf-8', 'replace')

    def section(self, name: str) -> Optional[Section]:
        """A section by its name."""
        base = self.sections[self.names].offset
        return next((s for s in self.sections if self.text(base + s.name) == name), None)

    def pointers(self, section: Section) -> Dict[int, Target]:
        """Place in the section that is relocated -> what the pointer there points to."""
        found = {}
        for k in range(section.size // RELOCATION.size):
            offset, info, addend = RELOCATION.unpack_from(self.data, section.offset + RELOCATION.size * k)
            if info & 0xffffffff == ABSOLUTE.get(self.machine):
                _, _, _, home, value, _ = self.symbols[info >> 32]
                if 0 < home < len(self.sections):
                    found[offset] = Target(home, value + addend)
        return found

    def function_at(self, target: Target) -> Optional[str]:
        """The function that begins there."""
        for name, info, _, home, value, _ in self.symbols:
            if (home, value) == target and info & 15 == FUNCTION:
                return self.text(self.strings + name)
        return None

    def pair(self, old: Target, new: Target) -> Optional[Tuple[str, str]]:
        """The old name and the new function, if that is what two neighbouring pointers are."""
        names, code = self.sections[old.section], self.sections[new.section]
        if names.flags & EXECUTABLE or not names.flags & STRINGS or not code.flags & EXECUTABLE:
            return None
        name, function = self.text(names.offset + old.place), self.function_at(new)
        return (name, function) if function and re.fullmatch(r'[\w.]+', name) else None


def parse(data: bytes) -> LivepatchModule:
    """The module of a file's bytes; Refused where it is none, or replaces nothing."""
    try:
        file = _File(data)
        pairs = []
        for section in file.sections:
            pointers = file.pointers(section) if section.kind == RELA else {}
            for place, old in sorted(pointers.items()):
                pair = file.pair(old, pointers[place + 8]) if place + 8 in pointers else None
                if pair:
                    pairs.append(pair)
        info = file.section('.modinfo')
        told = re.search(rb'(?:^|\0)name=([^\0]+)', data[info.offset:info.offset + info.size]) if info else None
    except (struct.error, IndexError, ValueError) as fault:
        raise Refused(f'the ELF file is cut or broken: {fault}') from None
    if not pairs:
        raise Refused('it replaces no function by relocations that are known here: name them by --function')
    return LivepatchModule(told[1].decode('utf-8', 'replace') if told else '', pairs)


def read(path: str) -> LivepatchModule:
    """The module of a file."""
    try:
        with open(path, 'rb') as file:
            return parse(file.read())
    except OSError as fault:
        raise Refused(f'{path}: {fault.strerror}') from None
    except Refused as fault:
        raise Refused(f'{path}: {fault}') from None
