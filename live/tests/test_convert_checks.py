"""The converter's rules for openings, walks, checks that a task makes of itself, completions and refused controls."""
import unittest

from recording_maker import EADDRINUSE, EBUSY, EINVAL, Kernel, kernel, loaded

from lpt_live.errors import Refused
from lpt_live.trace import parse

class Openings(unittest.TestCase):
    def test_enable_and_disable(self) -> None:
        machine = loaded()
        machine.switch(0, 20)
        machine.walk(20, [(11, 0, 0), (20, 0, 0), (10, 0, 0)], completes=True)
        machine.begin(20, state=0)
        self.assertEqual([event for event in machine.events() if event in ('enable', 'disable')], ['enable', 'disable'])
        legs = machine.converted().expectation.legs
        self.assertEqual([(leg.word, leg.side) for leg in legs], [('enable', 'new'), ('disable', 'old')])

    def test_reverse(self) -> None:
        machine = loaded()
        machine.switch(0, 20)
        machine.walk(20, [(11, 0, 0), (10, 0, EADDRINUSE)])
        machine.reverse(20, 0)
        self.assertEqual(machine.events(20)[-1], 'reverse')
        self.assertEqual(machine.converted().expectation.legs[-1].side, 'old')

    def test_a_reversal_with_nobody_left_is_late(self) -> None:
        machine = loaded()
        for cpu in (0, 1):
            machine.update(0, 0, cpu=cpu)
        machine.switch(0, 10, cpu=1)
        machine.switch(0, 20)
        machine.walk(20, [(11, 0, 0), (20, 0, 0), (99, 0, 0), (10, 0, EBUSY)])
        machine.sys_exit(10, cpu=1)
        machine.update(10, 0, cpu=1)
        machine.reverse(20, 0)
        self.assertEqual(machine.events(20)[-1], 'disable')
        self.assertEqual(machine.decisions('late'), ['late [disable] 0 reverse'])

    def test_two_patches_are_levels(self) -> None:
        machine = loaded()
        machine.switch(0, 20)
        machine.walk(20, [(11, 0, 0), (20, 0, 0), (10, 0, 0)], completes=True)
        machine.begin(20, 'q')
        result = machine.converted()
        self.assertIn('lptrace 2\nsym a\nsym b\nsym other\npatch 1 a\npatch 2 b\n', result.trace)
        self.assertEqual([leg.side for leg in result.expectation.legs], ['1', '2'])

    def test_patch_state_is_shown_from_its_preparation_on(self) -> None:
        machine = kernel()
        machine.switch(0, 11)
        machine.probe('init', 11, 'mod="p" state=1 replace=0')
        machine.switch(0, 20, cpu=1)
        machine.probe('start', 11, 'target=1')
        machine.probe('started', 11)
        result = machine.converted()
        leg = result.expectation.legs[0]
        self.assertLess(leg.begins, leg.opened - 1)


class Walks(unittest.TestCase):
    def test_who_is_over_and_who_stays(self) -> None:
        machine = loaded()
        machine.switch(0, 20)
        machine.switch(0, 11, cpu=1)
        machine.walk(20, [(10, 0, EADDRINUSE), (11, 0, EBUSY), (20, 0, 0)])
        self.assertEqual(machine.decisions('over', 'stays'), ['stays [walk] 10 frame', 'stays [walk] 11 busy', 'over [walk] 20 walk'])

    def test_the_walker_is_checked_though_it_runs(self) -> None:
        machine = loaded()
        machine.switch(0, 20)
        machine.walk(20, [(20, 0, 0)])
        self.assertEqual(machine.events(20)[-4:], ['wake 20', 'sleep 20', 'walk', 'wake 20'])
        self.assertEqual(machine.decisions('walker'), ['walker [walk] 20'])

    def test_where_a_user_task_was(self) -> None:
        machine = loaded()
        machine.switch(0, 11)
        machine.fork(11, 12)
        machine.sys_exit(11)
        machine.switch(11, 20, 'R')
        machine.walk(20, [(11, 0, 0), (12, 0, 0)])
        self.assertEqual(machine.decisions('over'), ['over [walk] 11 walk edge', 'over [walk] 12 walk unborn'])

    def test_a_verdict_ends_frames_of_the_patch(self) -> None:
        machine = loaded()
        machine.switch(0, 20)
        machine.walk(20, [(10, 0, 0)])
        self.assertEqual(machine.events(10)[-4:], ['wake 10', 'ret 10', 'sleep 10', 'walk'])

    def test_a_verdict_tells_of_a_frame_that_no_probe_saw(self) -> None:
        machine = loaded()
        machine.switch(0, 20)
        machine.walk(20, [(11, 0, EADDRINUSE)])
        look = machine.ask()
        machine.sample(look, {11: '0'}, {11: ['schedule', 'b', '__do_a', 'entry']})
        machine.told(look)
        self.assertEqual(machine.events(11)[-5:], ['wake 11', 'call 11 a', 'call 11 b', 'sleep 11', 'walk'])

    def test_a_frame_that_nothing_shows_has_the_patchs_first_name(self) -> None:
        machine = loaded()
        machine.switch(0, 20)
        machine.walk(20, [(11, 0, EADDRINUSE)])
        self.assertEqual(machine.events(11)[-4:], ['wake 11', 'call 11 a', 'sleep 11', 'walk'])
        self.assertEqual(machine.log()['frames told by the kernel\'s verdict, of unknown name'], 1)

    def test_the_dead_are_looked_at_until_they_are_reaped(self) -> None:
        machine = loaded()
        machine.switch(0, 11)
        machine.switch(11, 20, 'Z')
        machine.walk(20, [(11, 0, 0)])
        self.assertEqual(machine.decisions('over', 'zombie'), ['zombie [walk] 11 0'])

    def test_a_completion(self) -> None:
        machine = loaded()
        machine.switch(0, 20)
        machine.walk(20, [(11, 0, 0), (20, 0, 0), (10, 0, 0)], completes=True)
        result = machine.converted()
        leg = result.expectation.legs[0]
        self.assertEqual(machine.events()[-2:], ['walk', 'wake 20'])
        last = len(parse(result.trace).events)
        self.assertEqual((leg.complete, leg.shown), (last - 1, last))

    def test_a_recording_that_ends_within_a_walk_ends_before_it(self) -> None:
        machine = loaded()
        machine.switch(0, 20)
        machine.probe('walk', 20, 'target=1')
        machine.check(20, 10, 0, EADDRINUSE)
        self.assertEqual(machine.events()[-1], 'wake 20')
        self.assertEqual(machine.log()['walks cut off by the end'], 1)


class OwnChecks(unittest.TestCase):
    def test_at_the_exit(self) -> None:
        machine = loaded()
        machine.switch(0, 11)
        machine.sys_exit(11)
        machine.update(11, 0)
        self.assertEqual(machine.events(11)[-2:], ['wake 11', 'exit 11'])
        self.assertEqual(machine.decisions('over'), ['over [exit 11] 11 exit'])

    def test_from_user_space(self) -> None:
        machine = loaded()
        machine.switch(0, 11)
        machine.sys_exit(11)
        machine.update(11, 0, pending=False)
        machine.update(11, 0)                   # an interrupt
        self.assertEqual(machine.events(11)[-3:], ['exit 11', 'enter 11', 'exit 11'])

    def test_in_vain(self) -> None:
        machine = loaded()
        machine.switch(0, 20)
        machine.walk(20, [(11, 0, 0)])
        machine.switch(20, 11)
        machine.sys_exit(11)
        machine.update(11, 1, pending=False)
        self.assertEqual(machine.decisions('idle-update'), ['idle-update [exit 11] 11 1'])

    def test_pending_for_nothing(self) -> None:
        machine = loaded()
        machine.switch(0, 11)
        machine.sys_exit(11)
        machine.update(11, 1)
        self.assertEqual(machine.decisions('over', 'idle-update'), ['idle-update [exit 11] 11 1'])

    def test_by_another_task_is_refused(self) -> None:
        machine = loaded()
        machine.probe('update', 20, 'pid=11 state=0 flags=0x2000')
        with self.assertRaisesRegex(Refused, 'another task updates'):
            machine.converted()

    def test_idle_point(self) -> None:
        machine = loaded()
        machine.update(0, 0)
        self.assertEqual(machine.events()[-1], 'idle 65535')
        self.assertEqual(machine.decisions('over'), ['over [idle 65535] 65535 idle'])

    def test_at_cond_resched_that_succeeds(self) -> None:
        machine = loaded('6.12.0')
        machine.switch(0, 11)
        machine.call(11, 'other')
        machine.check(11, 11, 0, 0)
        self.assertEqual(machine.events(11)[-3:], ['wake 11', 'call 11 other', 'resched 11'])
        self.assertEqual(machine.decisions('over'), ['over [resched 11] 11 resched'])

    def test_at_cond_resched_the_verdict_ends_frames_of_the_patch(self) -> None:
        machine = loaded('6.12.0')
        machine.switch(0, 11)
        machine.call(11, 'other', 0xff00)
        machine.call(11, 'a', 0xfe00)
        machine.check(11, 11, 0, 0)
        machine.fork(11, 12)
        self.assertEqual(machine.events(11)[-5:], ['call 11 other', 'call 11 a', 'ret 11', 'resched 11', 'fork 11 12 own'])
        self.assertEqual(machine.decisions('born'), ['born [fork 11 12 own] 12 over'])

    def test_at_cond_resched_the_verdict_tells_of_a_frame_that_no_probe_saw(self) -> None:
        machine = loaded('6.12.0')
        machine.switch(0, 11)
        machine.check(11, 11, 0, EADDRINUSE)
        self.assertEqual(machine.events(11)[-3:], ['wake 11', 'call 11 a', 'resched 11'])

    def test_at_cond_resched_a_task_is_in_the_kernel(self) -> None:
        machine = loaded('6.12.0')
        machine.switch(0, 11)
        machine.sys_exit(11)
        machine.update(11, 0, pending=False)
        machine.check(11, 11, 0, 0)             # no system calls are recorded
        self.assertEqual(machine.events(11)[-3:], ['exit 11', 'enter 11', 'resched 11'])

    def test_at_cond_resched_on_the_way_out_the_exit_comes_later(self) -> None:
        machine = loaded('6.12.0')
        machine.switch(0, 11)
        machine.sys_exit(11)
        machine.check(11, 11, 0, 0)
        machine.sys_enter(11)
        self.assertEqual(machine.events(11)[-4:], ['wake 11', 'resched 11', 'exit 11', 'enter 11'])

    def test_at_cond_resched_that_is_refused(self) -> None:
        machine = loaded('6.12.0')
        machine.switch(0, 11)
        machine.call(11, 'a')
        machine.check(11, 11, 0, EADDRINUSE)
        machine.check(11, 11, 0, EINVAL)
        self.assertEqual(machine.events(11)[-4:], ['wake 11', 'call 11 a', 'resched 11', 'resched 11'])
        self.assertEqual(machine.decisions('over', 'stays'), ['stays [resched 11] 11 frame', 'stays [resched 11] 11 unreliable'])

    def test_a_kernel_with_this_check_has_a_text_with_its_word(self) -> None:
        for release, first, patch in (('6.3.9', 'lptrace 1\n', 'patch a\n'), ('6.4.0', 'lptrace 3\n', 'patch 1 a\n'),
                                      ('6.12.0', 'lptrace 3\n', 'patch 1 a\n')):
            with self.subTest(release=release):
                text = loaded(release).converted().trace
                self.assertTrue(text.startswith(first))
                self.assertIn(f'\n{patch}boot ', text)

    def test_a_check_of_another_task_outside_of_a_walk_is_refused(self) -> None:
        machine = loaded('6.12.0')
        machine.switch(0, 11)
        machine.check(11, 10, 0, 0)
        with self.assertRaisesRegex(Refused, 'outside of a walk'):
            machine.converted()


class Controls(unittest.TestCase):
    def test_refused_in_a_transition(self) -> None:
        machine = loaded()
        machine.switch(0, 11)
        machine.probe('load', 11, f'ret={EBUSY}')
        machine.probe('ctl', 11, 'val="0"')
        machine.probe('ctld', 11, f'ret={EINVAL}')
        self.assertEqual(machine.events(11)[-3:], ['wake 11', 'enable', 'disable'])
        self.assertEqual(machine.decisions('refused'), ['refused [enable] 0 enable_-16', 'refused [disable] 0 disable_-22'])

    def test_refused_outside_is_left_out(self) -> None:
        machine = loaded()
        machine.switch(0, 20)
        machine.walk(20, [(11, 0, 0), (20, 0, 0), (10, 0, 0)], completes=True)
        machine.probe('load', 20, f'ret={EINVAL}')
        self.assertEqual(machine.decisions('refused'), [])


if __name__ == '__main__':
    unittest.main()
