"""`lpt-live now` on pictures of real machines: who waits, by lpt where there is one, else by /proc alone."""
import contextlib
import io
import json
import os
import tempfile
import unittest
from typing import Dict, List
from unittest import mock

from fake_kernel import FakeKernel
from support import data, needs_lpt

from lpt_live import lpt, names, now, report
from lpt_live.errors import NotPossible
from lpt_live.now.seen import look
from lpt_live.record.system import System


class OnAPicture(unittest.TestCase):
    """The files of a picture, under a folder."""

    def setUp(self) -> None:
        folder = tempfile.TemporaryDirectory()
        self.addCleanup(folder.cleanup)
        self.folder = folder.name

    def picture(self, name: str) -> System:
        """The machine of a stored picture: a JSON object of paths (folders end with /) and texts."""
        with open(data('pictures', name), encoding='utf-8') as file:
            files: Dict[str, str] = json.load(file)
        machine = FakeKernel(os.path.join(self.folder, 'machine'))
        for path, text in files.items():
            if path.endswith('/'):
                machine.folder(path)
            else:
                machine.file(path, text)
        return machine

    def told(self, system: System, trace: str = '') -> str:
        """What `now` says."""
        out = io.StringIO()
        with contextlib.redirect_stdout(out), contextlib.redirect_stderr(io.StringIO()):
            self.assertEqual(now.tell(system, trace), 0)
        return out.getvalue()


class EnableTest(OnAPicture):
    """Linux 6.1: pipe_read and pause(2) are being patched; cat, pauser and a thread of threads are in them, by their stacks,
    and are those whose patch_state is 0."""

    WAITING = [1454, 1456, 1457]

    def test_who_waits_is_the_kernels_word(self) -> None:
        seen = look(self.picture('enable-6.1.json'))
        self.assertEqual([row['t'] for row in seen.waiting()], self.WAITING)

    @needs_lpt
    def test_a_later_kernel_has_a_further_check(self) -> None:
        machine = self.picture('enable-6.1.json')
        self.assertNotIn('cond_resched', self.told(machine))
        machine.file('/proc/version', 'Linux version 6.12.1-test (build@test) #1 SMP')
        self.assertTrue(look(machine).converted().trace.startswith('lptrace 3\n'))
        self.assertIn(', or at its own check at cond_resched\n', self.told(machine))

    @needs_lpt
    def test_the_engine_names_the_same_tasks_and_frames(self) -> None:
        got = look(self.picture('enable-6.1.json')).converted()
        legs = report.run('hybrid', got.trace).legs
        self.assertEqual([leg.complete for leg in legs], [None])
        who, events = got.names.tasks, [line for line in got.trace.splitlines() if not line.startswith(('lptrace', 'sym', 'patch', 'boot'))]
        found = {who[one.group].pid: (one.reasons[-1].word, events[one.reasons[-1].serial - 1]) for one in legs[-1].certificates}
        self.assertEqual(found, {1454: ('hold', 'call 1454 pipe_read'), 1456: ('hold', 'call 1456 __x64_sys_pause'),
                                 1457: ('hold', 'call 1457 __x64_sys_pause')})

    @needs_lpt
    def test_the_page(self) -> None:
        page = self.told(self.picture('enable-6.1.json'))
        self.assertIn('Patch klp_real: __x64_sys_pause, pipe_read\n', page)
        self.assertIn('3 of 10 tasks wait (by /proc; why by lpt, under hybrid)', page)
        self.assertIn('  cat (pid 1454), asleep\n    is in pipe_read, which the patch changes\n'
                      '    stack: pipe_read < vfs_read < ksys_read < do_syscall_64 < entry_SYSCALL_64_after_hwframe\n', page)
        self.assertIn('to help: data or the end of file on its pipe', page)
        self.assertNotIn('CAUTION', page)

    def test_without_lpt_it_says_so(self) -> None:
        with mock.patch.object(lpt, 'find', return_value=None):
            page = self.told(self.picture('enable-6.1.json'))
        self.assertIn('3 of 10 tasks wait (by /proc alone)', page)
        self.assertIn('NOT BY THE ENGINE: lpt', page)
        self.assertIn('  pauser (pid 1456), asleep\n    is in __x64_sys_pause\n', page)

    @needs_lpt
    def test_the_trace_can_be_explained_elsewhere(self) -> None:
        file = os.path.join(self.folder, 'x.lptrace')
        self.told(self.picture('enable-6.1.json'), file)
        with open(file, encoding='utf-8') as trace, open(file[:-len('.lptrace')] + '.names', encoding='utf-8') as who:
            self.assertEqual(len(report.run('hybrid', trace.read()).legs[0].certificates), 3)
            self.assertEqual(names.parse(who.read()).tasks[1454].comm, 'cat')


class DisableTest(OnAPicture):
    """Linux 6.1: box_a and box_b are being unpatched; a kernel thread and a task sleep in the new versions, which the patch's
    module has, and are those whose patch_state is 1.  Another task is on a CPU, and over."""

    @needs_lpt
    def test_the_new_versions_hold_it_open(self) -> None:
        seen = look(self.picture('disable-6.1.json'))
        self.assertEqual([row['t'] for row in seen.waiting()], [95, 4295])
        got = seen.converted()
        waiting = report.run('hybrid', got.trace).legs[-1].certificates
        who = got.names.tasks
        self.assertEqual({who[one.group].comm: one.reasons[-1].word for one in waiting}, {'kbox': 'hold', 'uninterruptible': 'hold'})

    @needs_lpt
    def test_the_page(self) -> None:
        page = self.told(self.picture('disable-6.1.json'))
        self.assertIn('Patch klp_fix: box_a, box_b\nunpatching; 2 of 6 tasks wait', page)
        self.assertIn('  kbox (kernel thread 95), asleep\n    is in box_a', page)
        self.assertIn('  uninterruptible (pid 4295), asleep, uninterruptibly\n    is in box_a', page)
        self.assertIn('its sleep is uninterruptible, signals don\'t help', page)
        self.assertNotIn('kspin', page)

    def test_without_lpt(self) -> None:
        with mock.patch.object(lpt, 'find', return_value=None):
            page = self.told(self.picture('disable-6.1.json'))
        self.assertIn('  kbox (kernel thread 95), asleep\n    is in new_box_b, new_box_a\n', page)


class OtherMachines(OnAPicture):
    """Machines of files."""

    def machine(self) -> FakeKernel:
        """A machine with no patch."""
        kernel = FakeKernel(os.path.join(self.folder, 'machine'))
        os.mkdir(kernel.root)
        return kernel.build()

    def stuck(self, *tasks: List[str]) -> FakeKernel:
        """A machine on which pipe_read is being patched."""
        kernel = self.machine()
        kernel.patch('fix', True, True, ['vmlinux/pipe_read,1'])
        kernel.task(1, 'init', 'S', '1', ['do_wait'])
        return kernel

    def test_no_transition(self) -> None:
        self.assertEqual(self.told(self.machine()), 'no patch is in transition\n')

    def test_a_kernel_without_livepatch(self) -> None:
        with self.assertRaisesRegex(NotPossible, 'CONFIG_LIVEPATCH'):
            now.tell(System(self.folder))

    @needs_lpt
    def test_a_task_on_a_cpu(self) -> None:
        kernel = self.stuck()
        kernel.task(7, 'spin', 'R', '0', [])
        page = self.told(kernel)
        self.assertIn('spin (pid 7), runnable, or on a CPU\n    is on a CPU, so its stack is unknown: goes over at its next return', page)

    @needs_lpt
    def test_a_task_that_the_next_walk_takes(self) -> None:
        kernel = self.stuck()
        kernel.task(7, 'late', 'S', '0', ['do_wait'])
        self.assertIn('has no replaced function on its stack now: goes over at the next walk', self.told(kernel))

    @needs_lpt
    def test_nobody_waits(self) -> None:
        kernel = self.stuck()
        kernel.task(7, 'cat', 'S', '1', [])
        page = self.told(kernel)
        self.assertIn('0 of 2 tasks wait', page)
        self.assertIn('an idle task waits', page)

    @needs_lpt
    def test_unpatching_is_held_open_by_the_new_function(self) -> None:
        kernel = self.machine()
        kernel.patch('fix', False, True, ['vmlinux/pipe_read,1'])
        kernel.task(1, 'init', 'S', '0', ['do_wait'])
        kernel.task(7, 'cat', 'S', '1', [])
        kernel.file('/proc/7/task/7/stack', '[<0>] new_pipe_read+0x1/0x2 [fix]\n[<0>] vfs_read+0x1/0x2\n')
        page = self.told(kernel)
        self.assertIn('unpatching; 1 of 2 tasks wait', page)
        self.assertIn('cat (pid 7), asleep\n    is in pipe_read', page)

    @needs_lpt
    def test_the_old_function_does_not_hold_up_unpatching(self) -> None:
        kernel = self.machine()
        kernel.patch('fix', False, True, ['vmlinux/pipe_read,1'])
        kernel.task(1, 'init', 'S', '1', ['do_wait'])
        kernel.task(7, 'cat', 'S', '0', ['pipe_read'])
        page = self.told(kernel)
        self.assertIn('init (pid 1), asleep\n    has no replaced function on its stack now', page)
        self.assertNotIn('cat', page)

    @needs_lpt
    def test_a_stacked_patch(self) -> None:
        kernel = self.machine()
        kernel.patch('low', True, False, ['vmlinux/pipe_read,1'])
        kernel.patch('high', True, True, ['vmlinux/pipe_read,1'])
        kernel.task(1, 'init', 'S', '1', ['do_wait'])
        kernel.task(7, 'cat', 'S', '0', [])
        kernel.file('/proc/7/task/7/stack', '[<0>] new_pipe_read+0x1/0x2 [low]\n[<0>] vfs_read+0x1/0x2\n')
        page = self.told(kernel)
        self.assertIn('Patch high: pipe_read\npatching; 1 of 2 tasks wait', page)
        self.assertIn('cat (pid 7), asleep\n    is in pipe_read', page)

    @needs_lpt
    def test_a_kernel_thread(self) -> None:
        kernel = self.stuck()
        kernel.file('/proc/7/task/7/stat', '7 (kbox) S 1 1 1 0 -1 2097152 ' + '0 ' * 29 + '1 0 0\n')
        kernel.file('/proc/7/task/7/patch_state', '0\n')
        page = self.told(kernel)
        self.assertIn('kbox (kernel thread 7), asleep', page)
        self.assertIn('at the first walk after pipe_read returns (a kernel thread never returns to user space)', page)

    @needs_lpt
    def test_a_pid_that_a_trace_has_no_room_for(self) -> None:
        kernel = self.stuck()
        kernel.task(4000000, 'far', 'S', '0', ['pipe_read'])
        self.assertIn('far (pid 4000000), asleep\n    is in pipe_read', self.told(kernel))

    def test_what_no_trace_can_say_is_told_by_proc_alone(self) -> None:
        kernel = self.machine()
        kernel.patch('low', False, True, ['vmlinux/pipe_read,1'])
        kernel.patch('high', True, False, ['vmlinux/pipe_read,1'])
        page = self.told(kernel)
        self.assertIn('NOT BY THE ENGINE: low is in transition below another patch', page)

    def test_a_task_that_ends_meanwhile(self) -> None:
        kernel = self.stuck()
        os.remove(kernel.path('/proc/7/task/7/stat'))
        self.assertEqual([row['t'] for row in look(kernel).tasks()], [1])


if __name__ == '__main__':
    unittest.main()
