"""The converter's parts: lines, functions, heights of patches, looks."""
import random
import unittest

from recording_maker import EADDRINUSE, EBUSY, Kernel, kernel, loaded

from lpt_live.errors import Refused


class Lines(unittest.TestCase):
    def test_the_clock_orders_them_whatever_buffer_they_came_through(self) -> None:
        machine = loaded()
        machine.switch(0, 20)
        machine.walk(20, [(10, 0, EADDRINUSE)])
        expected = machine.converted().trace
        random.Random(1).shuffle(machine.lines)
        self.assertEqual(machine.converted().trace, expected)

    def test_what_is_no_record_is_left_out_and_counted(self) -> None:
        machine = loaded()
        expected = machine.converted().trace
        machine.lines[2:2] = ['', '# tracer: nop', '##### CPU 1 buffer started ####', '"', 'what is this']
        self.assertEqual(machine.converted().trace, expected)
        self.assertEqual(machine.log()['unread lines'], 1)

    def test_an_unknown_probe_is_counted(self) -> None:
        machine = loaded()
        machine.probe('later', 10)
        self.assertEqual(machine.log()['unread events later'], 1)

    def test_names_of_tasks_may_have_anything(self) -> None:
        machine = loaded()
        machine.at('sched_switch', 20, 'prev_comm=kworker/0:1 [x] prev_pid=20 prev_prio=120 prev_state=S ==> '
                   'next_comm=a-b 7 next_pid=10 next_prio=120')
        machine.lines[-1] = machine.lines[-1].replace('kworker/0:1-20', 'kw or-k: -7er-20', 1)
        self.assertEqual(machine.converted().names.tasks[10].comm, 'a-b 7')
        self.assertIn('task 10 user a-b_7\n', machine.converted().expectation.text())


    def test_names_of_tasks_do_a_terminal_no_harm(self) -> None:
        machine = loaded()
        machine.at('sched_switch', 20, 'prev_comm=x prev_pid=20 prev_prio=120 prev_state=S ==> '
                   'next_comm=\x1b[31mred next_pid=10 next_prio=120')
        self.assertIn('task 10 user \\x1b[31mred\n', machine.converted().expectation.text())


class Functions(unittest.TestCase):
    def test_one_name_in_two_objects(self) -> None:
        machine = Kernel()
        machine.meta['functions']['ext4:a'] = {'n': 9, 'name': 'a', 'object': 'ext4', 'side': 'old'}
        machine.meta['after'] = {'p': {'enabled': '1', 'transition': '1', 'functions': [['ext4', 'a', 1]]}}
        machine.snapshot(10, stacks={10: ['schedule', 'a [ext4]', 'a', 'entry']})
        machine.begin(11)
        self.assertIn('sym ext4:a\nsym other\nsym vmlinux:a\npatch ext4:a\n', machine.converted().trace)
        self.assertEqual(machine.prologue()[1:3], ['call 10 vmlinux:a', 'call 10 ext4:a'])

    def test_likeness_counts_only_where_one_alone_is_like_it(self) -> None:
        machine = Kernel(before={'p': 'on'})
        machine.meta['modules'] = {}
        machine.meta['before']['p']['functions'] = [['vmlinux', 'a', 1], ['vmlinux', 'other', 1]]
        machine.snapshot(10, 11, stacks={10: ['schedule', 'new_other_a [p]', 'entry'], 11: ['schedule', 'new_other [p]', 'entry']})
        machine.begin(20, state=0)
        calls = [event for event in machine.prologue() if event.startswith('call')]
        self.assertEqual(calls, ['call 11 other'])
        self.assertEqual(machine.log()['new functions told by likeness of names'], 1)

    def test_versions_need_the_names_of_every_patch(self) -> None:
        machine = loaded()
        machine.meta['after'] = {'r': {'enabled': '1', 'transition': '0', 'functions': [['vmlinux', 'other', 1]]}}
        machine.switch(0, 11)
        machine.call(11, 'a')
        self.assertEqual(machine.decisions('ran'), [])

    def test_a_new_function_of_a_module_is_named_with_it_in_the_list(self) -> None:
        machine = Kernel(before={'p': 'on'})
        machine.meta['modules'] = {}
        machine.probe('m0_0_0_1', 99, 'mod="p" obj=(fault) o0="a" n0=better+0x0/0x45 [q]')
        machine.snapshot(10, stacks={10: ['schedule', 'better [q]', 'entry']})
        machine.begin(11, state=0)
        self.assertIn('call 10 a', machine.prologue())


class Heights(unittest.TestCase):
    def test_the_kernels_list_orders_patches_from_before(self) -> None:
        machine = Kernel(before={'p': 'patching', 'q': 'on'})
        machine.probe('m0_0_0_1', 99, 'mod="q" obj=(fault) o0="b" n0=new_b+0x0/0x45 [q]')
        machine.probe('m1_0_0_1', 99, 'mod="p" obj=(fault) o0="a" n0=new_a+0x0/0x45 [p]')
        machine.snapshot(10, states={10: 0})
        self.assertIn('patch 1 b\npatch 2 a\n', machine.converted().trace)

    def test_a_patch_that_was_off_is_none(self) -> None:
        machine = Kernel(before={'q': 'off', 'p': 'on'})
        machine.snapshot(10)
        machine.begin(11, state=0)
        self.assertIn('lptrace 1\n', machine.converted().trace)

    def test_atomic_replace_of_a_patch_that_is_off_doesnt_matter(self) -> None:
        machine = Kernel(before={'q': 'off', 'p': 'on'})
        machine.meta['before']['q']['replace'] = '1'
        machine.snapshot(10)
        machine.begin(11, state=0)
        machine.converted()

    def on_top(self) -> Kernel:
        """q is loaded on p."""
        machine = Kernel(before={'p': 'on'})
        machine.snapshot(10)
        machine.begin(11, 'q')
        return machine

    def test_a_patch_that_was_turned_round_is_off_once_that_is_complete(self) -> None:
        machine = self.on_top()
        machine.reverse(11, 0)
        machine.walk(20, [(10, 1, 0)], target=0, completes=True)
        machine.begin(11, 'p', state=0)
        self.assertEqual([leg.side for leg in machine.converted().expectation.legs], ['1', '2', '1', '0'])

    def test_a_patch_that_was_disabled_is_off_once_that_is_complete(self) -> None:
        machine = self.on_top()
        machine.walk(20, [(10, 0, 0)], completes=True)
        machine.begin(11, 'q', state=0)
        machine.walk(20, [(10, 1, 0)], target=0, completes=True)
        machine.begin(11, 'p', state=0)
        self.assertEqual([leg.side for leg in machine.converted().expectation.legs], ['1', '2', '1', '0'])

    def test_before_that_it_is_on(self) -> None:
        machine = self.on_top()
        machine.begin(11, 'q', state=0)
        machine.begin(11, 'p', state=0)
        with self.assertRaisesRegex(Refused, 'p is disabled below another patch'):
            machine.converted()

    def test_a_patch_that_was_disabled_comes_again_at_its_height(self) -> None:
        machine = self.on_top()
        machine.walk(20, [(10, 0, 0)], completes=True)
        machine.begin(11, 'q', state=0)
        machine.walk(20, [(10, 1, 0)], target=0, completes=True)
        machine.begin(11, 'q')
        self.assertEqual([leg.side for leg in machine.converted().expectation.legs], ['1', '2', '1', '2'])

    def test_another_patch_at_a_height_that_was_anothers(self) -> None:
        machine = Kernel(before={'p': 'on'})
        machine.snapshot(10)
        machine.begin(11, 'p', state=0)
        machine.walk(20, [(10, 1, 0)], target=0, completes=True)
        machine.begin(11, 'q')
        with self.assertRaisesRegex(Refused, 'q comes at another height'):
            machine.converted()


class Probes(unittest.TestCase):
    def test_where_only_yes_or_no_is_known(self) -> None:
        """Where klp_check_and_switch_task can't be probed, klp_try_switch_task is: its answer has no reason."""
        machine = loaded()
        machine.switch(0, 20)
        machine.probe('walk', 20, 'target=1')
        for pid, answer in ((11, 1), (10, 0)):
            machine.probe('check', 20, f'pid={pid} state=0 on=0')
            machine.probe('checked', 20, f'ok={answer}')
        machine.probe('walked', 20)
        self.assertEqual(machine.decisions('over', 'stays'), ['over [walk] 11 walk edge', 'stays [walk] 10 somehow'])

    def test_a_verdict_of_a_check_from_before_is_none(self) -> None:
        machine = Kernel(before={'p': 'patching'})
        machine.probe('checked', 20, 'ret=0')
        machine.snapshot(10, states={10: 1})
        self.assertEqual(machine.decisions('over')[-1].split()[-1], 'told')

    def test_a_write_that_was_accepted_is_no_control_of_its_own(self) -> None:
        machine = loaded()
        machine.switch(0, 11)
        machine.probe('ctl', 11, 'val="0"')
        machine.probe('reverse', 11)
        machine.probe('start', 11, 'target=0')
        machine.probe('started', 11)
        machine.probe('ctld', 11, 'ret=2')
        self.assertEqual(machine.events(11)[-1], 'reverse')

    def test_a_task_that_a_walk_switched_has_children_that_are_over(self) -> None:
        machine = loaded()
        machine.switch(0, 20)
        machine.walk(20, [(10, 0, 0)])
        machine.switch(0, 10, cpu=1)
        machine.fork(10, 12, cpu=1)
        machine.switch(10, 12, cpu=1)
        machine.fork(12, 13, cpu=1)
        self.assertEqual(machine.decisions('born'), ['born [fork 10 12 own] 12 over', 'born [fork 12 13 own] 13 over'])

    def test_in_the_next_transition_everyone_waits_again(self) -> None:
        machine = loaded()
        machine.switch(0, 20)
        machine.walk(20, [(11, 0, 0)], completes=True)
        machine.begin(20, state=0)
        machine.switch(0, 10, cpu=1)
        machine.fork(10, 12, cpu=1)
        self.assertEqual(machine.decisions('born'), ['born [fork 10 12 own] 12 waiting'])

    def test_in_the_next_patchs_transition_those_of_the_first_wait_again(self) -> None:
        machine = loaded()
        machine.switch(0, 20)
        machine.walk(20, [(10, 0, 0), (11, 0, 0)], completes=True)
        machine.begin(20, 'q')
        machine.switch(0, 10, cpu=1)
        machine.fork(10, 12, cpu=1)
        self.assertEqual(machine.decisions('born'), ['born [fork 10 12 own] 12 waiting'])

    def test_where_the_target_cant_be_read_it_is_told_by_its_changes(self) -> None:
        machine = kernel()
        machine.switch(0, 11)
        machine.probe('init', 11, 'mod="p" state=1')
        machine.probe('start', 11)
        machine.probe('started', 11)
        machine.sys_exit(11)
        machine.update(11, 0)
        machine.switch(0, 20, cpu=1)
        machine.probe('reverse', 20, cpu=1)
        machine.probe('start', 20, cpu=1)
        machine.probe('started', 20, cpu=1)
        machine.update(11, 1)
        machine.sys_enter(11)
        machine.fork(11, 12)
        self.assertEqual(machine.decisions('over', 'born'), ['over [exit 11] 11 exit', 'over [exit 11] 11 exit',
                                                             'born [fork 11 12 own] 12 over'])

    def test_from_6_4_on_that_is_enough_for_all_but_reversals(self) -> None:
        machine = kernel('6.12.0')
        machine.switch(0, 11)
        machine.probe('init', 11, 'mod="p" state=1')
        machine.probe('start', 11)
        machine.probe('started', 11)
        self.assertEqual(machine.events(11)[-1], 'enable')

    def test_a_birth_outside_of_transitions_has_no_side(self) -> None:
        machine = loaded()
        machine.switch(0, 20)
        machine.walk(20, [(11, 0, 0), (10, 0, 0)], completes=True)
        machine.fork(20, 12)
        self.assertEqual(machine.decisions('born'), [])

    def test_a_child_that_is_a_kernel_thread(self) -> None:
        machine = loaded()
        machine.switch(0, 20)
        machine.probe('copy', 20, 'pid=21 tgid=21 flags=0x208040')
        machine.at('sched_process_fork', 20, 'comm=kthreadd pid=20 child_comm=kthreadd child_pid=21')
        machine.walk(20, [(21, 0, 0)])
        self.assertEqual(machine.converted().names.tasks[21].kind, 'kthread')
        self.assertEqual(machine.decisions('over'), ['over [walk] 21 walk'])

    def test_the_target_is_read_at_each_walk(self) -> None:
        """A walk of a recording that began in the midst of an opening."""
        machine = Kernel(before={'p': 'unpatching'})
        machine.snapshot(10, states={10: 1})
        machine.walk(20, [(10, 1, 0)], target=0)
        machine.fork(10, 12)
        self.assertEqual(machine.decisions('over')[-1], 'over [walk] 10 walk kernel')
        self.assertEqual(machine.decisions('born'), ['born [fork 10 12 own] 12 over'])

    def test_behind_a_reversal_its_target_counts(self) -> None:
        for release in ('6.1.0', '6.12.0'):
            machine = loaded(release)
            machine.switch(0, 20)
            machine.walk(20, [(10, 0, EADDRINUSE), (11, 0, 0)])
            machine.switch(0, 10, cpu=1)
            machine.reverse(20, 0)
            machine.fork(10, 12, cpu=1)
            self.assertEqual(machine.decisions('born'), ['born [fork 10 12 own] 12 over'], release)


class LooksInProc(unittest.TestCase):
    def test_only_tasks_of_the_trace_are_shown(self) -> None:
        machine = loaded()
        look = machine.ask()
        machine.fork(10, 12, succeeds=False)
        machine.sample(look, {10: '0', 12: '0', 777: '0'})
        machine.told(look)
        self.assertEqual([decision.task for decision in machine.converted().expectation.decisions if decision.word == 'shown'], [10])

    def test_only_what_patch_state_can_show_is_shown(self) -> None:
        machine = loaded()
        look = machine.ask()
        machine.sample(look, {10: '', 11: '0', 20: 'none'})
        machine.told(look)
        self.assertEqual([decision.task for decision in machine.converted().expectation.decisions if decision.word == 'shown'],
                         [11, 20])

    def test_a_stack_before_the_verdict_tells_nothing_of_it(self) -> None:
        machine = loaded()
        look = machine.ask()
        machine.sample(look, {11: '0'}, {11: ['schedule', 'b', 'a', 'entry']})
        machine.told(look)
        machine.switch(0, 20)
        machine.walk(20, [(11, 0, EADDRINUSE), (10, 0, EBUSY)])
        self.assertEqual(machine.events(11)[-4:], ['wake 11', 'call 11 a', 'sleep 11', 'walk'])


if __name__ == '__main__':
    unittest.main()
