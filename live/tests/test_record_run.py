"""A whole recording on a machine of files."""
import argparse
import contextlib
import io
import os
import unittest

from fake_kernel import TRACEFS
from on_a_machine import OnAMachine
from test_record_parts import module

from lpt_live.record import add_arguments, wanted
from lpt_live.record.recorder import ALL, LEAST, NO_SYSCALLS, Wanted


class RecordTest(OnAMachine):
    """What a recording has in it."""

    def test_a_stuck_transition(self) -> None:
        self.stuck()
        self.later(0.3, self.completes)
        got = self.record(sample=0.1)
        self.assertTrue(self.kernel.is_clean())
        self.assertEqual(got.meta['before'], {'fix': {'enabled': '1', 'transition': '1', 'functions': [['vmlinux', 'pipe_read', 1]]}})
        self.assertEqual(got.meta['after']['fix']['transition'], '0')
        self.assertEqual(got.meta['clock'], 'counter')
        self.assertEqual((got.meta['refused'], got.meta['missed'], got.meta['lacks']), ([], {}, []))
        snapshot = got.proc[0]['tasks']
        self.assertEqual([(row['t'], row['comm'], row['ps'], row['stack']) for row in snapshot],
                         [(1, 'init', '1', ['do_wait']), (7, 'cat', '0', ['pipe_read', 'vfs_read'])])
        waiting = [row for look in got.proc[1:] for row in look['tasks'] if 'stack' in row]
        self.assertEqual({row['t'] for row in waiting}, {7})
        self.assertEqual(waiting[0]['stack'], ['pipe_read', 'vfs_read'])

    def test_by_default_a_look_tells_who_waits_and_what_changed(self) -> None:
        self.stuck()
        self.later(0.5, self.kernel.task, 7, 'cat', 'S', '1')
        looks = self.record(sample=0.1, seconds=1.2).proc[1:]
        told = [(row['t'], row['ps']) for look in looks for row in look['tasks']]
        self.assertEqual(told[:2], [(1, '1'), (7, '0')])
        self.assertEqual(told.count((1, '1')), 1)
        self.assertEqual(told.count((7, '1')), 1)
        self.assertEqual(told[-1], (7, '1'))

    def test_with_more_detail_a_look_tells_all(self) -> None:
        self.stuck()
        looks = self.record(sample=0.1, seconds=0.4, detail=NO_SYSCALLS).proc[1:]
        for look in looks:
            self.assertEqual([row['t'] for row in look['tasks']], [1, 7])

    def test_by_default_functions_are_known_but_not_probed(self) -> None:
        self.stuck()
        self.later(0.05, self.completes)
        got = self.record()
        self.assertEqual(got.meta['functions']['pipe_read']['probed'], False)
        self.assertEqual(got.meta['events'], ['sched/sched_process_fork', 'sched/sched_process_exit'])
        self.assertFalse([name for name in got.meta['probes'] if name[:1] == 'f' and name[1:].isdigit()])

    def test_without_system_calls(self) -> None:
        self.stuck()
        self.later(0.05, self.completes)
        got = self.record(detail=NO_SYSCALLS)
        self.assertEqual(got.meta['events'][0], 'sched/sched_switch')
        self.assertNotIn('raw_syscalls/sys_exit', got.meta['events'])
        self.assertIn('f0', got.meta['probes'])

    def test_everything(self) -> None:
        self.stuck()
        self.later(0.05, self.completes)
        self.assertIn('raw_syscalls/sys_exit', self.record(detail=ALL).meta['events'])

    def test_before_the_load(self) -> None:
        file = os.path.join(os.path.dirname(self.output), 'fix.ko')
        with open(file, 'wb') as out:
            out.write(module([('pipe_read', 'new_pipe_read'), ('box_a', 'new_box_a')]))
        self.later(0.1, self.kernel.patch, 'fix', True, True, ['vmlinux/pipe_read,1', 'klp_box/box_a,1'])
        self.later(0.4, self.kernel.patch, 'fix', True, False, ['vmlinux/pipe_read,1', 'klp_box/box_a,1'])
        got = self.record(detail=ALL, modules=[file], functions=['__x64_sys_pause'])
        self.assertEqual(got.meta['modules'], {'fix': [['pipe_read', 'new_pipe_read'], ['box_a', 'new_box_a']]})
        functions = got.meta['functions']
        self.assertEqual({key: (each['object'], each['side'], each['loaded']) for key, each in functions.items()}, {
            '__x64_sys_pause': ('vmlinux', 'old', True), 'pipe_read': ('vmlinux', 'old', True),
            'klp_box:box_a': ('klp_box', 'old', True), 'fix:new_pipe_read': ('fix', 'new', False),
            'fix:new_box_a': ('fix', 'new', False)})
        self.assertEqual(functions['__x64_sys_pause']['aliases'], ['__do_sys_pause'])
        self.assertEqual(got.meta['before'], {})
        # The patch's list is read again once the patch is there.
        self.assertTrue([name for name in got.meta['probes'] if name.startswith('m0_')])

    def test_a_function_is_found_in_its_module(self) -> None:
        got = self.record(seconds=0.1, functions=['box_a', 'later:box_c'])
        self.assertEqual({key: each['loaded'] for key, each in got.meta['functions'].items()},
                         {'klp_box:box_a': True, 'later:box_c': False})

    def test_a_transition_that_ends_as_the_recording_begins(self) -> None:
        self.stuck()
        self.kernel.when_on.append(self.completes)      # between the look at the patches and the first record
        got = self.record(seconds=0.1)
        self.assertEqual(got.meta['before']['fix']['transition'], '0')
        self.assertTrue(self.kernel.is_clean())

    def test_a_second_patch_is_taken_in_too(self) -> None:
        self.kernel.patch('fix', True, False, ['vmlinux/pipe_read,1'])
        self.later(0.3, self.kernel.patch, 'second', True, True, ['vmlinux/__x64_sys_pause,1'])
        got = self.record(seconds=1.0, until='stop')
        self.assertEqual(list(got.meta['functions']), ['pipe_read', '__x64_sys_pause'])
        read = [name for name in got.meta['probes'] if name.startswith('m')]
        self.assertEqual([name.split('_')[0] for name in read], ['m0', 'm0', 'm1'])      # one patch, then two

    def test_after_so_many_seconds(self) -> None:
        self.stuck()
        got = self.record(seconds=0.4)
        self.assertAlmostEqual(self.clock.now(), 0.5)      # the first pause that ends after 0.4
        self.assertEqual(got.meta['after']['fix']['transition'], '1')
        self.assertTrue(self.kernel.is_clean())

    def test_records_come_from_the_pipe(self) -> None:
        line = '  cat-7  [000] .....  12: walk: (klp_try_complete_transition+0x0/0x1) target=1\n'
        make = self.kernel.make_folder

        def with_records(name: str) -> None:
            make(name)
            self.kernel.file(name + '/trace_pipe', line)
        self.kernel.make_folder = with_records     # type: ignore[assignment]
        self.assertEqual(self.record(seconds=0.1).records, [line.rstrip('\n')])

    def test_lost_records_are_said(self) -> None:
        make = self.kernel.make_folder

        def losing(name: str) -> None:
            make(name)
            self.kernel.file(name + '/per_cpu/cpu0/stats', 'entries: 5\noverrun: 31\ndropped events: 2\n')
        self.kernel.make_folder = losing     # type: ignore[assignment]
        with contextlib.redirect_stderr(io.StringIO()) as said:
            got = self.record(seconds=0.1)
        self.assertIn('LOST 33 records', said.getvalue())
        self.assertEqual(got.meta['stats'], {'entries': 5, 'overrun': 31, 'dropped events': 2})

    def test_missed_probes_are_said(self) -> None:
        self.kernel.file(TRACEFS + '/kprobe_profile', '  walk      10      4\n  other      1      9\n  check 5 0\n')
        with contextlib.redirect_stderr(io.StringIO()) as said:
            self.assertEqual(self.record(seconds=0.1).meta['missed'], {'walk': 4})
        self.assertIn('missed: walk 4 times', said.getvalue())


class WordsTest(unittest.TestCase):
    """What the words ask for."""

    def wanted(self, *words: str) -> Wanted:
        parser = argparse.ArgumentParser()
        add_arguments(parser)
        return wanted(parser.parse_args(words))

    def test_the_least_by_default(self) -> None:
        self.assertEqual(self.wanted(), Wanted('transition.rec', [], [], LEAST, 0.0, 'complete', 1.0, 16384))

    def test_more_for_whoever_asks(self) -> None:
        self.assertEqual(self.wanted('--all').detail, ALL)
        self.assertEqual(self.wanted('--no-syscalls').detail, NO_SYSCALLS)
        self.assertEqual(self.wanted('--all', '--no-syscalls').detail, NO_SYSCALLS)

    def test_the_others(self) -> None:
        self.assertEqual(self.wanted('-o', 'x', '--module', 'a.ko', '--module', 'b.ko', '--function', 'f', '--seconds', '2.5',
                                     '--until', 'stop', '--sample', '0.5', '--buffer', '99'),
                         Wanted('x', ['a.ko', 'b.ko'], ['f'], LEAST, 2.5, 'stop', 0.5, 99))

if __name__ == '__main__':
    unittest.main()
