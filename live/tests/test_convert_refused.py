"""Recordings of which a trace can't tell the truth: refused with the reason, and nothing is written."""
import gzip
import os
import tempfile
import unittest
from typing import Callable, List

from recording_maker import Kernel
from support import data
from test_foundation import outcome

from lpt_live.errors import Refused
from lpt_live.recording import Writer

EADDRINUSE = -98


def loaded(**options: object) -> Kernel:
    """p is loaded."""
    machine = Kernel(**options)         # type: ignore[arg-type]
    machine.snapshot(10, 11, 20)
    machine.begin(11)
    return machine


class Reasons(unittest.TestCase):
    def refused(self, machine: Kernel, reason: str) -> None:
        """It must be refused for this reason, as a file, and leave nothing."""
        with self.assertRaisesRegex(Refused, reason):
            machine.converted()
        with tempfile.TemporaryDirectory() as folder:
            path = os.path.join(folder, 'x.rec')
            with Writer(path) as out:
                out.meta(machine.meta)
                for row in machine.proc:
                    out.proc(row)
                out.records(machine.lines)
            status, output, error = outcome(['convert', path, os.path.join(folder, 'x')])
            self.assertEqual((status, output), (3, ''))
            self.assertRegex(error, f'^lpt-live convert: .*{reason}')
            self.assertEqual(os.listdir(folder), ['x.rec'])

    def test_lost_records(self) -> None:
        machine = loaded()
        machine.lines.insert(3, 'CPU:1 [LOST 22 EVENTS]')
        self.refused(machine, r'lost records \(CPU:1 \[LOST 22 EVENTS\]\)')

    def test_lost_records_that_the_buffers_count(self) -> None:
        for name in ('overrun', 'commit overrun', 'dropped events'):
            machine = loaded()
            machine.meta['stats'][name] = 7
            self.refused(machine, 'lost 7 records')

    def test_atomic_replace(self) -> None:
        machine = loaded()
        machine.probe('init', 11, 'mod="q" state=1 replace=1')
        machine.probe('start', 11, 'target=1')
        self.refused(machine, 'q replaces all patches below it')

    def test_atomic_replace_from_before(self) -> None:
        machine = Kernel(before={'p': 'patching'})
        machine.meta['before']['p']['replace'] = '1'
        machine.snapshot(10)
        self.refused(machine, 'p replaces all patches below it')

    def test_force(self) -> None:
        machine = loaded()
        machine.probe('force', 11)
        self.refused(machine, 'was forced')

    def test_a_patch_disabled_below_another(self) -> None:
        machine = loaded()
        machine.walk(20, [(10, 0, 0)], completes=True)
        machine.begin(11, 'q')
        machine.walk(20, [(10, 0, 0)], completes=True)
        machine.begin(11, 'p', state=0)
        self.refused(machine, 'p is disabled below another patch')

    def test_a_patch_that_comes_back_at_another_height(self) -> None:
        machine = Kernel(before={'p': 'on', 'q': 'on'})
        machine.snapshot(10)
        for patch in ('q', 'p'):
            machine.begin(11, patch, state=0)
            machine.walk(20, [(10, 1, 0)], target=0, completes=True)
        machine.begin(11, 'q')
        self.refused(machine, 'q comes at another height')

    def test_a_lower_patch_that_is_in_transition_at_the_start(self) -> None:
        machine = Kernel(before={'p': 'unpatching', 'q': 'on'})
        machine.snapshot(10)
        self.refused(machine, 'p is in transition below another patch')

    def test_return_probes(self) -> None:
        for probe in ('r0', 'updated'):
            machine = loaded()
            machine.meta['probes'].append(probe)
            self.refused(machine, 'return probes')

    def test_another_machine(self) -> None:
        machine = loaded()
        machine.meta['uname'][4] = 'aarch64'
        self.refused(machine, 'a recording of aarch64')

    def test_no_patch(self) -> None:
        machine = Kernel()
        machine.snapshot(10)
        self.refused(machine, 'no patch was on and none came')

    def test_a_patch_of_unknown_functions(self) -> None:
        machine = Kernel()
        machine.snapshot(10)
        machine.begin(11, 'other')
        self.refused(machine, 'the functions of patch other aren\'t known')

    def test_a_reversal_whose_moment_is_unknown(self) -> None:
        machine = loaded(release='6.12.0')
        machine.probe('reverse', 11)
        machine.probe('start', 11)
        self.refused(machine, 'klp_target_state can\'t be read')

    def test_a_record_without_its_fields(self) -> None:
        machine = loaded()
        machine.probe('update', 10, 'pid=(fault) state=0 flags=0x2000')
        self.refused(machine, r'record \d+ \(update\) has no number pid')

    def test_records_that_contradict_each_other(self) -> None:
        machine = loaded()
        machine.switch(0, 10)
        machine.switch(0, 10, cpu=1)
        self.refused(machine, 'it is on a CPU already')

    def test_a_part_that_the_recorder_always_writes(self) -> None:
        for part in ('probes', 'functions', 'before', 'uname'):
            machine = loaded()
            del machine.meta[part]
            self.refused(machine, f'the recording has no {part}')

    def test_a_task_of_the_snapshot_without_its_members(self) -> None:
        machine = loaded()
        del machine.proc[0]['tasks'][0]['kt']
        self.refused(machine, 'a look into /proc has no kt')


class Files(unittest.TestCase):
    """Files that are no whole recordings."""

    def outcome(self, change: Callable[[bytes], bytes], reason: str) -> None:
        """Changes a recording; it must be refused with this reason, and leave nothing."""
        with open(data('recordings', 'attach-enable.rec'), 'rb') as file:
            whole = file.read()
        with tempfile.TemporaryDirectory() as folder:
            path = os.path.join(folder, 'x.rec')
            with open(path, 'wb') as out:
                out.write(change(whole))
            for words in (['convert', path, os.path.join(folder, 'x')], ['verify', path]):
                status, output, error = outcome(words)
                self.assertEqual((status, output), (3, ''), error)
                self.assertRegex(error, reason)
                self.assertEqual(os.listdir(folder), ['x.rec'])

    def text(self, change: Callable[[List[str]], List[str]]) -> Callable[[bytes], bytes]:
        """A change of the lines within."""
        return lambda whole: gzip.compress('\n'.join(change(gzip.decompress(whole).decode().split('\n'))).encode())

    def test_cut(self) -> None:
        for size in (100, 3000, 5600):
            self.outcome(lambda whole, size=size: whole[:size], 'is cut')

    def test_cut_within(self) -> None:
        self.outcome(self.text(lambda lines: lines[:-2]), 'the recording is cut: it has no line #LAST')
        self.outcome(self.text(lambda lines: lines[:40]), 'the recording is cut: it has no line #LAST')

    def test_another_version(self) -> None:
        self.outcome(self.text(lambda lines: ['lprecording 2'] + lines[1:]), 'another version: \'lprecording 2\'')

    def test_damaged(self) -> None:
        self.outcome(lambda whole: whole[:2000] + b'\0\0\0\0' + whole[2004:], 'x.rec: ')

    def test_nothing_is_written_where_one_file_cant_be(self) -> None:
        with tempfile.TemporaryDirectory() as folder:
            os.mkdir(os.path.join(folder, 'x.names'))
            status, output, error = outcome(['convert', data('recordings', 'attach-enable.rec'), os.path.join(folder, 'x')])
            self.assertEqual((status, output), (3, ''))
            self.assertEqual(os.listdir(folder), ['x.names'])
            self.assertIn('x.names', error)


if __name__ == '__main__':
    unittest.main()
