"""The recorder's parts that read the kernel: symbols, type information, patches, tasks, module files."""
import os
import struct
import tempfile
import unittest
from typing import Dict, List, Tuple

from fake_kernel import SYMBOLS, FakeKernel, btf_blob

from lpt_live.errors import Refused
from lpt_live.record import module_file, patches
from lpt_live.record.btf import Btf, NoBtf
from lpt_live.record.symbols import Symbol, Symbols
from lpt_live.record.system import System


class SymbolsTest(unittest.TestCase):
    """/proc/kallsyms."""

    def setUp(self) -> None:
        self.symbols = Symbols(SYMBOLS.encode())

    def test_a_name_has_all_its_places(self) -> None:
        self.assertEqual(self.symbols.places('twice'), [Symbol(0xffffffff81000040, ''), Symbol(0xffffffff81000050, '')])
        self.assertEqual(self.symbols.places('box_a'), [Symbol(0xffffffffc0000000, 'klp_box')])

    def test_a_part_of_a_name_is_no_name(self) -> None:
        self.assertEqual(self.symbols.places('klp_start'), [])
        self.assertEqual(self.symbols.places('stext'), [])
        self.assertEqual(self.symbols.places(''), [])

    def test_the_last_line_needs_no_end(self) -> None:
        self.assertEqual(Symbols(b'10 t a\n20 t b\n').places('b'), [Symbol(0x20, '')])

    def test_other_names_of_an_address(self) -> None:
        place = self.symbols.places('__x64_sys_pause')[0]
        self.assertEqual(self.symbols.others(place, '__x64_sys_pause'), ['__do_sys_pause'])
        first = self.symbols.places('_stext')[0]
        self.assertEqual(self.symbols.others(first, '_stext'), [])

    def test_hidden_addresses(self) -> None:
        hidden = Symbols(b'0000000000000000 t a\n0000000000000000 t b\n')
        self.assertFalse(hidden.readable('a'))
        self.assertEqual(hidden.others(hidden.places('a')[0], 'a'), [])
        self.assertTrue(self.symbols.readable('twice'))


class BtfTest(unittest.TestCase):
    """Offsets of members."""

    def test_offsets_and_sizes(self) -> None:
        btf = Btf(btf_blob(), ['task_struct', 'klp_func'])
        self.assertEqual(btf.offset('task_struct', 'patch_state'), 2000)
        self.assertEqual(btf.offset('klp_func', 'new_func'), 8)
        self.assertEqual(btf.size('klp_func'), 168)

    def test_what_is_not_there(self) -> None:
        btf = Btf(btf_blob(), ['task_struct', 'nothing'])
        self.assertFalse(btf.has('task_struct', 'tcb'))
        self.assertFalse(btf.has('klp_func', 'new_func'))       # not among the wanted ones
        with self.assertRaises(NoBtf):
            btf.offset('task_struct', 'tcb')
        with self.assertRaises(NoBtf):
            btf.size('nothing')

    def test_members_of_a_structure_with_bitfields(self) -> None:
        strings = b'\0s\0one\0two\0'
        types = struct.pack('<III', 1, 1 << 31 | 4 << 24 | 2, 16)
        types += struct.pack('<III', 3, 1, 5 << 24 | 0) + struct.pack('<III', 7, 1, 8 << 24 | 64)
        blob = struct.pack('<HBBIIIII', 0xeb9f, 1, 0, 24, 0, len(types), len(types), len(strings)) + types + strings
        self.assertEqual(Btf(blob, ['s']).offset('s', 'two'), 8)

    def test_no_type_information(self) -> None:
        for data in (b'', b'short', b'\0' * 100):
            with self.assertRaises(NoBtf):
                Btf(data, ['task_struct'])


class PatchesTest(unittest.TestCase):
    """/sys/kernel/livepatch."""

    def setUp(self) -> None:
        folder = tempfile.TemporaryDirectory()
        self.addCleanup(folder.cleanup)
        self.kernel = FakeKernel(folder.name).build()

    def test_none(self) -> None:
        self.assertEqual(patches.loaded(self.kernel), [])
        self.assertFalse(patches.in_transition(self.kernel))

    def test_order_is_that_of_loading(self) -> None:
        self.kernel.patch('z_first', True, False, ['vmlinux/pipe_read,1'])
        self.kernel.patch('a_second', True, True, ['klp_box/box_a,1', 'klp_box/box_b,2'])
        found = patches.loaded(self.kernel)
        self.assertEqual([patch.name for patch in found], ['z_first', 'a_second'])
        self.assertEqual(found[1].functions, [patches.Function('klp_box', 'box_a', 1), patches.Function('klp_box', 'box_b', 2)])
        self.assertEqual(patches.in_motion(found), found[1])
        self.assertTrue(patches.in_transition(self.kernel))

    def test_what_newer_kernels_say(self) -> None:
        for name, height in (('loaded_first', 2), ('loaded_last', 1)):
            self.kernel.patch(name, True, False, ['vmlinux/pipe_read,1'])
            self.kernel.file(f'/sys/kernel/livepatch/{name}/stack_order', f'{height}\n')
            self.kernel.file(f'/sys/kernel/livepatch/{name}/replace', f'{height - 1}\n')
        found = patches.loaded(self.kernel)
        self.assertEqual([(patch.name, patch.replaces) for patch in found], [('loaded_last', False), ('loaded_first', True)])
        self.assertEqual([patch.record().get('replace') for patch in found], [None, '1'])

    def test_a_record_of_a_patch(self) -> None:
        self.kernel.patch('p', False, True, ['vmlinux/pipe_read,1'])
        self.assertEqual(patches.loaded(self.kernel)[0].record(), {
            'enabled': '0', 'transition': '1', 'functions': [['vmlinux', 'pipe_read', 1]]})


class SystemTest(unittest.TestCase):
    """/proc."""

    def setUp(self) -> None:
        folder = tempfile.TemporaryDirectory()
        self.addCleanup(folder.cleanup)
        self.kernel = FakeKernel(folder.name).build()

    def test_tasks(self) -> None:
        self.assertEqual(list(self.kernel.tasks()), [(1, 1), (7, 7)])

    def test_a_name_with_brackets_and_blanks(self) -> None:
        self.kernel.task(9, 'a) (b c', 'D')
        found = self.kernel.stat(9, 9)
        assert found is not None
        self.assertEqual((found.comm, found.state, found.kernel_thread, found.cpu), ('a) (b c', 'D', False, 1))

    def test_stacks(self) -> None:
        self.kernel.file('/proc/7/task/7/stack', '[<0>] new_box_a+0x1/0x2 [klp_fix]\n[<0>] vfs_read+0x9c/0x2e0\nrubbish\n')
        self.assertEqual(self.kernel.stack(7, 7), ['new_box_a [klp_fix]', 'vfs_read'])

    def test_a_task_that_is_gone(self) -> None:
        self.assertIsNone(self.kernel.stat(8, 8))
        self.assertIsNone(self.kernel.stack(8, 8))
        self.assertIsNone(self.kernel.patch_state(8, 8))

    def test_a_file_that_is_gone(self) -> None:
        self.assertIsNone(System('/').maybe('/proc/no/such'))
        self.assertEqual(System('/').read('/proc/no/such'), '')


def module(pairs: List[Tuple[str, str]], name: bytes = b'license=GPL\0name=fix\0', machine: int = 62) -> bytes:
    """A relocatable file with a livepatch's table: for each pair a pointer to a string and one to a function, 64 bytes apart."""
    code = {new: 16 * k for k, (_, new) in enumerate(pairs)}
    texts, text_at = b'', {}
    for old, _ in pairs:
        text_at[old] = len(texts)
        texts += old.encode() + b'\0'
    names, name_at = b'\0', {}      # type: bytes, Dict[str, int]
    for new in code:
        name_at[new] = len(names)
        names += new.encode() + b'\0'
    # symbols: none, the section of strings, then the functions
    symbols = struct.pack('<IBBHQQ', 0, 0, 0, 0, 0, 0) + struct.pack('<IBBHQQ', 0, 3, 0, 2, 0, 0)
    symbols += b''.join(struct.pack('<IBBHQQ', name_at[new], 2, 0, 1, at, 8) for new, at in code.items())
    kind = {62: 1, 183: 257}[machine]
    relocations = b''
    for k, (old, _) in enumerate(pairs):
        relocations += struct.pack('<QQq', 64 * k, 1 << 32 | kind, text_at[old])
        relocations += struct.pack('<QQq', 64 * k + 8, (2 + k) << 32 | kind, 0)
    parts = [(b'', 0, 0, b'', 0), (b'.text', 1, 6, b'\x90' * 16 * max(1, len(pairs)), 0),
             (b'.rodata.str', 1, 0x32, texts, 0), (b'.data', 1, 3, b'\0' * 64 * max(1, len(pairs)), 0),
             (b'.rela.data', 4, 0, relocations, 5), (b'.symtab', 2, 0, symbols, 6), (b'.strtab', 3, 0, names, 0),
             (b'.modinfo', 1, 2, name, 0)]
    return elf(parts, machine)


def elf(parts: List[Tuple[bytes, int, int, bytes, int]], machine: int) -> bytes:
    """The file of its sections: (name, kind, flags, data, link); the last section has the names of all."""
    names, heads, body = b'', [], b''
    everything = parts + [(b'.shstrtab', 3, 0, b'\0'.join(part[0] for part in parts) + b'\0.shstrtab\0', 0)]
    for name, kind, flags, data, link in everything:
        at = len(names)
        names += name + b'\0'
        heads.append(struct.pack('<IIQQQQIIQQ', at, kind, flags, 0, 64 + len(body), len(data), link, 0, 1, 0))
        body += data
    start = b'\x7fELF\x02\x01\x01' + b'\0' * 9 + struct.pack('<HHIQQQIHHHHHH', 1, machine, 1, 0, 0, 64 + len(body), 0, 64, 0, 0, 64,
                                                            len(heads), len(heads) - 1)
    return start + body + b''.join(heads)


class ModuleFileTest(unittest.TestCase):
    """The functions of a module's file."""

    PAIRS = [('pipe_read', 'new_pipe_read'), ('__x64_sys_pause', 'new_sys_pause')]

    def test_pairs_and_name(self) -> None:
        self.assertEqual(module_file.parse(module(self.PAIRS)), module_file.LivepatchModule('fix', self.PAIRS))

    def test_another_machine_numbers_pointers_otherwise(self) -> None:
        self.assertEqual(module_file.parse(module(self.PAIRS, machine=183)).functions, self.PAIRS)

    def test_without_a_table(self) -> None:
        with self.assertRaisesRegex(Refused, 'replaces no function'):
            module_file.parse(module([]))

    def test_a_string_that_is_no_name(self) -> None:
        with self.assertRaisesRegex(Refused, 'replaces no function'):
            module_file.parse(module([('not a name', 'f')]))

    def test_no_such_file(self) -> None:
        with self.assertRaisesRegex(Refused, 'No such file'):
            module_file.read('/no/such.ko')

    def test_every_cut_is_refused_or_the_same(self) -> None:
        whole = module(self.PAIRS)
        for end in range(0, len(whole), 7):
            with self.assertRaises(Refused, msg=str(end)):
                module_file.parse(whole[:end])

    def test_other_files(self) -> None:
        for data in (b'', b'\x7fELF', b'#!/bin/sh\n', b'\x7fELF\x01\x01' + b'\0' * 100):
            with self.assertRaises(Refused):
                module_file.parse(data)

    def test_a_real_one_that_is_no_patch(self) -> None:
        with self.assertRaises(Refused):
            module_file.read(os.path.realpath('/proc/self/exe'))


if __name__ == '__main__':
    unittest.main()
