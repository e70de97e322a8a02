"""The parts of `try-in-vm` that need no virtual machine."""
import base64
import contextlib
import gzip
import io
import os
import stat
import tempfile
import unittest
from pathlib import Path
from typing import Dict, List, Tuple
from unittest import mock

from support import LIVE

from vm import guest, judge, machine, packages, plan


def members(archive: bytes) -> Dict[str, Tuple[int, bytes]]:
    """Name -> (mode, data) of an archive as the kernel reads it."""
    found: Dict[str, Tuple[int, bytes]] = {}
    at = 0
    while True:
        if archive[at:at + 6] != b'070701':
            raise ValueError(f'no member at {at}')
        fields = [int(archive[at + 6 + 8 * k:at + 14 + 8 * k], 16) for k in range(13)]
        name = archive[at + 110:at + 110 + fields[11] - 1].decode()
        at = (at + 110 + fields[11] + 3) // 4 * 4
        if name == 'TRAILER!!!':
            return found
        found[name] = (fields[1], archive[at:at + fields[6]])
        at = (at + fields[6] + 3) // 4 * 4


class OtherPackages(packages.Packages):
    """apt's answers, without apt."""

    def __init__(self, answers: Dict[str, str]) -> None:
        self.answers = answers

    def run(self, program: str, *words: str, where: str = '.') -> str:
        return self.answers[words[-1]]


class TryInVmTest(unittest.TestCase):
    """Packages, first file system, files of the guest, plan and table."""

    def setUp(self) -> None:
        folder = tempfile.TemporaryDirectory()
        self.addCleanup(folder.cleanup)
        self.folder = Path(folder.name)

    def test_the_first_file_system(self) -> None:
        root = self.folder / 'root'
        (root / 'bin').mkdir(parents=True)
        (root / 'init').write_bytes(b'#!/bin/sh\n')
        (root / 'init').chmod(0o755)
        (root / 'bin/sh').symlink_to('busybox')
        (root / 'empty').write_bytes(b'')
        with gzip.open(guest.pack(root, self.folder / 'first.gz')) as packed:
            found = members(packed.read())
        self.assertEqual({name: data for name, (_, data) in found.items()},
                         {'bin': b'', 'init': b'#!/bin/sh\n', 'bin/sh': b'busybox', 'empty': b''})
        self.assertTrue(stat.S_ISDIR(found['bin'][0]))
        self.assertTrue(stat.S_ISLNK(found['bin/sh'][0]))
        self.assertEqual(found['init'][0], stat.S_IFREG | 0o755)

    def test_files_of_the_guest(self) -> None:
        body = base64.encodebytes(b'x' * 100).decode().replace('\n', '\r\n')
        text = f'FILE a.rec\r\n{body}DONE\r\nFILE ../../b\n{body}DONE\nFILE cut.rec\n{body}'
        found = machine.unpack_files(text, self.folder)
        self.assertEqual(sorted(found), ['../../b', 'a.rec'])
        self.assertEqual(found['a.rec'].read_bytes(), b'x' * 100)
        self.assertEqual(sorted(os.listdir(self.folder)), ['a.rec', 'b'])      # a guest's name leads nowhere else

    def test_a_guest_that_dies_is_booted_again_for_the_rest(self) -> None:
        ran: List[List[str]] = []

        def dying(image: Path, first: Path, run: plan.Boot, folder: Path, *_: object) -> Dict[str, Path]:
            ran.append(run.scenarios)
            lines = ''.join(f'BEGIN {name} 1.0\nEND {name} 2.0\n' for name in run.scenarios[:1]) if len(ran) < 3 else ''
            (folder / 'console').write_text(lines + 'Kernel panic\n')
            return {f'{name}.rec': folder / name for name in run.scenarios[:1]}
        with mock.patch.object(machine, 'boot', dying), contextlib.redirect_stderr(io.StringIO()):
            found, left = machine.boots(Path('i'), Path('f'), plan.Boot('6.12', '', ['a', 'b', 'c']), self.folder, 1.0, False)
        self.assertEqual(ran, [['a', 'b', 'c'], ['b', 'c']] + [['c']] * (machine.TRIES - 2))
        self.assertEqual((sorted(found), left), (['a.rec', 'b.rec', 'c.rec'], ['c']))

    def test_the_newest_kernel(self) -> None:
        names = ['linux-image-6.1.0-9-amd64', 'linux-image-6.1.0-56-amd64', 'linux-image-6.1.0-57-cloud-amd64',
                 'linux-image-6.1.0-58-rt-amd64', 'linux-image-6.1.0-60-amd64-unsigned', 'linux-image-6.12.9+deb12-amd64']
        apt = OtherPackages({'^linux-image-6.1\\.': ''.join(f'{name} - Linux\n' for name in names), '^linux-image-6.2\\.': ''})
        self.assertEqual(apt.newest_kernel('6.1'), '6.1.0-56-amd64')
        with self.assertRaisesRegex(packages.Impossible, 'no linux-image-6.2'):
            apt.newest_kernel('6.2')

    def test_what_building_a_module_takes(self) -> None:
        apt = OtherPackages({'linux-headers-K': 'linux-headers-K\n  Depends: linux-base\n  Depends: linux-headers-common\n'
                             ' |Depends: linux-image-K\n  Depends: linux-kbuild-6.1\n', 'linux-headers-common': '',
                             'linux-kbuild-6.1': '  Depends: libc6\n'})
        self.assertEqual(sorted(apt.kernel_packages('K')),
                         ['linux-headers-K', 'linux-headers-common', 'linux-image-K', 'linux-kbuild-6.1'])

    def test_each_scenario_that_is_planned_is_there(self) -> None:
        files = {path.stem for path in (Path(LIVE) / 'vm/scenarios').glob('*.sh')}
        self.assertEqual(files, set(plan.SCENARIOS))
        planned: List[str] = [name for boot in plan.boots(list(plan.LINES), [], ['', 'full']) for name in boot.scenarios]
        self.assertEqual(set(planned), set(plan.SCENARIOS))

    def test_who_left_something(self) -> None:
        file = self.folder / 'x.left'
        file.write_text('ended-by-KILL: probes left behind: 16 and its instance\na: probes left behind: 0\nb: probes left behind: 2\n')
        self.assertEqual(judge.left_over({'x.left': file, 'y.rec': file}), ['b: probes left behind: 2'])


if __name__ == '__main__':
    unittest.main()
