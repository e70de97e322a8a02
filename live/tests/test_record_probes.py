"""The probes as they would be written, and what is said of a kernel that lacks something."""
import contextlib
import io
import os
import tempfile
import unittest
from typing import List
from unittest import mock

from fake_kernel import STRUCTS, SYMBOLS, TRACEFS, FakeKernel, btf_blob

from lpt_live import doctor
from lpt_live.errors import NotPossible
from lpt_live.record import patch_memory, patches, probes, tracefs
from lpt_live.record.kernel import Kernel
from lpt_live.record.symbols import Symbol

# Offsets are those of fake_kernel.STRUCTS: pid 1400, tgid 1404, patch_state 2000, flags 44, thread_info 0 with cpu 20.
LIVEPATCH = '''\
p:lpt_live/init klp_init_transition mod=+24(+0($arg1)):string state=$arg2:s32 replace=+24($arg1):u8
p:lpt_live/reverse klp_reverse_transition
p:lpt_live/start klp_start_transition.part.0 target=@klp_target_state:s32
r64:lpt_live/started klp_start_transition.part.0
p:lpt_live/walk klp_try_complete_transition target=@klp_target_state:s32
r64:lpt_live/walked klp_try_complete_transition
p:lpt_live/complete klp_complete_transition
p:lpt_live/force klp_force_transition
p:lpt_live/check klp_check_and_switch_task pid=+1400($arg1):s32 state=+2000($arg1):s32 on=+20($arg1):u32
r64:lpt_live/checked klp_check_and_switch_task ret=$retval:s32
p:lpt_live/update klp_update_patch_state pid=+1400($arg1):s32 state=+2000($arg1):s32 flags=+0($arg1):x64
p:lpt_live/copy klp_copy_process pid=+1400($arg1):s32 tgid=+1404($arg1):s32 flags=+44($arg1):x32
p:lpt_live/release release_task pid=+1400($arg1):s32 state=+2000($arg1):s32
r64:lpt_live/load klp_enable_patch ret=$retval:s32
p:lpt_live/ctl _stext+9437440 val=+0($arg3):string
r64:lpt_live/ctld _stext+9437440 ret=$retval:s64
'''


class OnAKernel(unittest.TestCase):
    """A machine of files that can be recorded."""

    def setUp(self) -> None:
        folder = tempfile.TemporaryDirectory()
        self.addCleanup(folder.cleanup)
        self.kernel = FakeKernel(folder.name).build()

    def without(self, *names: str) -> Kernel:
        """The same kernel without these functions."""
        lines = [line for line in SYMBOLS.splitlines(True) if line.split()[2] not in names]
        self.kernel.file('/proc/kallsyms', ''.join(lines))
        return Kernel(self.kernel)


class ProbesTest(OnAKernel):
    """The lines for kprobe_events."""

    def commands(self, kernel: Kernel) -> List[str]:
        return [probe.command() for probe in probes.of_livepatch(kernel)]

    def test_of_livepatch(self) -> None:
        self.assertEqual(self.commands(Kernel(self.kernel)), LIVEPATCH.splitlines())

    def test_the_first_function_need_not_be_split(self) -> None:
        kernel = self.without('klp_start_transition.part.0')
        self.assertIn('p:lpt_live/start klp_start_transition target=@klp_target_state:s32', self.commands(kernel))

    def test_an_inlined_check(self) -> None:
        self.kernel.file('/proc/kallsyms', SYMBOLS.replace('klp_check_and_switch_task', 'klp_try_switch_task'))
        commands = self.commands(Kernel(self.kernel))
        self.assertIn('r64:lpt_live/checked klp_try_switch_task ok=$retval:u8', commands)

    def test_a_target_that_cannot_be_read(self) -> None:
        self.assertIn('p:lpt_live/walk klp_try_complete_transition', self.commands(self.without('klp_target_state')))

    def test_the_cpu_lies_in_the_task_on_some_kernels(self) -> None:
        size, members = STRUCTS['task_struct']
        other = {**STRUCTS, 'task_struct': (size, {**members, 'cpu': 68}), 'thread_info': (8, {'flags': 0})}
        with open(self.kernel.path('/sys/kernel/btf/vmlinux'), 'wb') as out:
            out.write(btf_blob(other))
        self.assertTrue(any('on=+68($arg1):u32' in line for line in self.commands(Kernel(self.kernel))))

    def test_no_probe_at_the_end_of_a_patched_function(self) -> None:
        probe = probes.of_function(Kernel(self.kernel), 3, 'pipe_read', [Symbol(0xffffffff81000020, '')], 1)
        assert probe is not None
        self.assertEqual(probe.command(), 'p:lpt_live/f3 pipe_read sp=$stack')

    def test_a_shared_name_is_probed_by_its_place(self) -> None:
        kernel = Kernel(self.kernel)
        places = kernel.symbols.places('twice')
        second = probes.of_function(kernel, 0, 'twice', places, 2)
        assert second is not None
        self.assertEqual(second.command(), 'p:lpt_live/f0 _stext+80 sp=$stack')
        self.assertIsNone(probes.of_function(kernel, 0, 'twice', places, 0))
        self.assertIsNone(probes.of_function(kernel, 0, 'twice', places, 3))

    def test_the_patches_memory(self) -> None:
        self.kernel.patch('first', True, False, ['vmlinux/pipe_read,1'])
        self.kernel.patch('second', True, True, ['vmlinux/pipe_read,1'])
        found = [probe.command() for probe in patch_memory.probes(Kernel(self.kernel), patches.loaded(self.kernel), 5)]
        # The list's links lie at 32 in a patch: a patch begins 32 bytes before the place that its neighbour points to.
        self.assertEqual(found[0], 'p:lpt_live/m0_0_0_5 proc_pid_patch_state mod=+24(-32(@klp_patches)):string '
                                   'obj=+0(+0(-24(@klp_patches))):string o0=+0(+0(+8(-24(@klp_patches)))):string '
                                   'n0=+8(+8(-24(@klp_patches))):symbol')
        self.assertEqual(found[1], found[0].replace('m0_', 'm1_').replace('@klp_patches', '+0(@klp_patches)'))
        self.assertEqual(len(found), 2)

    def test_no_patch_has_no_memory(self) -> None:
        self.assertEqual(patch_memory.probes(Kernel(self.kernel), [], 0), [])


class DoctorTest(OnAKernel):
    """What is missing, and what that comes to."""

    def examine(self, **words: bool) -> str:
        """What the doctor says; an end with a reason goes on as an exception."""
        out = io.StringIO()
        with contextlib.redirect_stdout(out):
            try:
                self.status = doctor.examine(self.kernel, **words)
            except NotPossible as end:
                self.status = end.status
        return out.getvalue()

    def test_all_is_there(self) -> None:
        self.assertEqual(self.examine(), 'a recording is possible\n')
        self.assertEqual(self.status, 0)

    def test_it_changes_nothing(self) -> None:
        before = sorted((where, tuple(files)) for where, _, files in os.walk(self.kernel.root))
        self.examine()
        self.assertEqual(before, sorted((where, tuple(files)) for where, _, files in os.walk(self.kernel.root)))
        self.assertEqual(self.kernel.log, [])

    def test_each_thing_that_is_missing_is_said(self) -> None:
        for name, word in ((TRACEFS + '/kprobe_events', 'kprobe_events'), ('/sys/kernel/btf/vmlinux', 'CONFIG_DEBUG_INFO_BTF'),
                           ('/proc/kallsyms', 'kallsyms'), ('/proc/self/patch_state', 'patch_state')):
            with self.subTest(name):
                place = self.kernel.path(name)
                os.rename(place, place + '.away')
                said = self.examine()
                os.rename(place + '.away', place)
                self.assertIn('missing: ', said)
                self.assertIn(word, said)
                self.assertEqual(self.status, 5)

    def test_each_function_that_is_missing_is_said(self) -> None:
        for name in ('klp_init_transition', 'klp_try_complete_transition', 'klp_update_patch_state', 'klp_copy_process',
                     'klp_complete_transition', 'release_task', 'klp_check_and_switch_task'):
            with self.subTest(name):
                self.without(name)
                self.assertIn(name, self.examine())
                self.assertEqual(self.status, 5)

    def test_hidden_addresses(self) -> None:
        self.kernel.file('/proc/kallsyms', '\n'.join('0' * 16 + line[16:] for line in SYMBOLS.splitlines()) + '\n')
        self.assertIn('kptr_restrict', self.examine())
        self.assertEqual(self.status, 5)

    def test_a_kernel_without_livepatch(self) -> None:
        os.rmdir(self.kernel.path('/sys/kernel/livepatch'))
        self.assertIn('CONFIG_LIVEPATCH', self.examine())
        self.assertEqual(self.status, 5)

    def test_another_machine(self) -> None:
        with mock.patch.object(self.kernel, 'machine', return_value='aarch64'):
            self.assertIn('missing: x86-64', self.examine())
        self.assertEqual(self.status, 5)

    def test_what_is_there_is_told_to_whoever_asks(self) -> None:
        said = self.examine(everything=True)
        self.assertIn('there:   the trace clock `counter`\n', said)
        self.assertNotIn('without it', said)

    def test_lockdown(self) -> None:
        self.kernel.file('/sys/kernel/security/lockdown', 'none integrity [confidentiality]\n')
        self.assertIn('locked down', self.examine())
        self.assertEqual(self.status, 5)
        self.kernel.file('/sys/kernel/security/lockdown', 'none [integrity] confidentiality\n')
        self.assertEqual((self.examine(), self.status), ('a recording is possible\n', 0))

    def test_what_makes_it_poorer_does_not_make_it_impossible(self) -> None:
        os.remove(self.kernel.path('/proc/self/stack'))
        self.assertIn('poorer: ', self.examine())
        self.assertEqual(self.status, 0)

    def test_an_untried_kernel_is_said(self) -> None:
        self.kernel.file('/proc/version', 'Linux version 5.10.0 (x)\n')
        self.assertIn('5.10.0', self.examine())
        self.assertEqual(self.status, 0)

    def test_a_recorder_at_work_is_left_alone(self) -> None:
        self.kernel.make_folder(TRACEFS + '/instances/lpt_live')
        held = tracefs.lock(self.kernel, TRACEFS)
        assert held is not None
        self.addCleanup(os.close, held)
        self.assertIn('a recorder is at work now', self.examine())
        self.assertEqual((self.status, self.examine(clean=True), self.status), (0, '', 5))
        self.assertFalse(self.kernel.is_clean())

    def test_what_a_killed_recorder_left(self) -> None:
        self.kernel.make_folder(TRACEFS + '/instances/lpt_live')
        self.kernel.append(TRACEFS + '/kprobe_events', 'p:lpt_live/walk klp_try_complete_transition\n')
        self.kernel.append(TRACEFS + '/kprobe_events', 'p:others/walk klp_try_complete_transition\n')
        said = self.examine()
        self.assertIn('left by a killed recorder: probe walk\n', said)
        self.assertIn('instances/lpt_live', said)
        self.assertFalse(self.kernel.is_clean())
        self.assertIn('taken away: probe walk', self.examine(clean=True))
        self.assertEqual(self.kernel.read(TRACEFS + '/kprobe_events'), 'p:others/walk klp_try_complete_transition\n')
        self.assertEqual(self.examine(), 'a recording is possible\n')


if __name__ == '__main__':
    unittest.main()
