"""Where members lie in the kernel's structures, from the kernel's own type information (BTF).

No offset is built in: it differs from configuration to configuration, and a wrong one would record another member
without anybody noticing.
"""
import struct
from typing import Dict, Iterable, Tuple

MAGIC = 0xeb9f
HEADER = struct.Struct('<HBBIIIII')
TYPE = struct.Struct('<III')
STRUCT = 4
# What follows a type, by its kind: bytes of its own, and bytes for each of its members.
TRAILER = {1: 4, 3: 12, 14: 4, 17: 4}                   # int, array, var, decl_tag
MEMBER = {4: 12, 5: 12, 6: 8, 13: 8, 15: 12, 19: 12}    # struct, union, enum, prototype, section, enum64


class NoBtf(Exception):
    """There is no type information, or none that can be read."""


class Btf:
    """Offsets of members, in bytes, of the wanted structures."""

    def __init__(self, data: bytes, wanted: Iterable[str]) -> None:
        if len(data) < HEADER.size or HEADER.unpack_from(data)[0] != MAGIC:
            raise NoBtf('no BTF in it')
        _, _, _, header, types, types_size, strings, strings_size = HEADER.unpack_from(data)
        self.data, self.strings = data, header + strings
        self.structures: Dict[str, Tuple[Dict[str, int], int]] = {}
        self._read(header + types, types_size, self._names(wanted, strings_size))

    def _names(self, wanted: Iterable[str], size: int) -> Dict[int, str]:
        """Where the wanted names stand among the strings: comparing numbers spares reading each type's name."""
        found = {}
        for name in wanted:
            at = self.data.find(b'\0' + name.encode() + b'\0', self.strings, self.strings + size)
            if at >= 0:
                found[at + 1 - self.strings] = name
        return found

    def _read(self, at: int, size: int, name_of: Dict[int, str]) -> None:
        end = at + size
        while at < end:
            name, info, length = TYPE.unpack_from(self.data, at)
            kind, members = info >> 24 & 31, info & 0xffff
            at += TYPE.size
            if kind == STRUCT and name in name_of:
                self.structures[name_of[name]] = (self._members(at, members, bool(info >> 31)), length)
            at += TRAILER.get(kind, 0) + members * MEMBER.get(kind, 0)

    def _members(self, at: int, count: int, bitfields: bool) -> Dict[str, int]:
        found = {}
        for k in range(count):
            name, _, bits = TYPE.unpack_from(self.data, at + 12 * k)
            begin = self.strings + name
            text = self.data[begin:self.data.index(b'\0', begin)].decode()
            found[text] = (bits & 0xffffff if bitfields else bits) // 8
        return found

    def has(self, structure: str, member: str) -> bool:
        """Whether the structure has such a member by name (not within an unnamed one)."""
        return structure in self.structures and member in self.structures[structure][0]

    def offset(self, structure: str, member: str) -> int:
        """Bytes from the structure's begin."""
        if not self.has(structure, member):
            raise NoBtf(f'no {member} in {structure}')
        return self.structures[structure][0][member]

    def size(self, structure: str) -> int:
        """Bytes of the structure."""
        if structure not in self.structures:
            raise NoBtf(f'no {structure}')
        return self.structures[structure][1]
