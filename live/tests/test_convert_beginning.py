"""What the converter makes of a recording's beginning, of /proc, and of a recording without the scheduler."""
import os
import tempfile
import unittest
from unittest import mock

from recording_maker import EADDRINUSE, EBUSY, Kernel
from support import data, needs_lpt
from test_foundation import outcome

from lpt_live import report
from lpt_live.convert import output
from lpt_live.errors import Refused
from lpt_live.trace import parse
from lpt_live.verify.case import Case
from lpt_live.verify.judge import differences


class Prologue(unittest.TestCase):
    def test_who_sleeps_and_who_runs(self) -> None:
        machine = Kernel()
        machine.snapshot(10, 11, 20)
        machine.sys_enter(11)               # so 11 was in user space
        machine.begin(11)
        self.assertEqual(machine.prologue(), ['enter 10', 'sleep 10', 'enter 20', 'sleep 20', 'enter 99', 'sleep 99'])
        self.assertEqual(machine.events(11), ['enter 11', 'enable'])

    def test_frames_from_before_come_of_the_stack(self) -> None:
        machine = Kernel()
        machine.snapshot(10, stacks={10: ['schedule', 'a', 'b', 'entry']})
        machine.begin(11)
        self.assertEqual(machine.prologue()[:4], ['enter 10', 'call 10 b', 'call 10 a', 'sleep 10'])

    def test_another_name_of_the_function_counts(self) -> None:
        machine = Kernel()
        machine.snapshot(10, stacks={10: ['schedule', '__do_a', 'entry']})
        machine.begin(11)
        self.assertEqual(machine.prologue()[1], 'call 10 a')

    def test_calls_before_the_look_are_not_told_twice(self) -> None:
        machine = Kernel()
        machine.switch(0, 10)
        machine.call(10, 'a')
        machine.switch(10, 0)
        machine.snapshot(10, stacks={10: ['schedule', 'a', 'entry']})
        machine.begin(11)
        self.assertEqual(machine.events(10), ['wake 10', 'call 10 a', 'sleep 10', 'enable'])

    def test_the_stack_of_a_task_that_moved_meanwhile_says_nothing(self) -> None:
        machine = Kernel()
        look = machine.ask()
        machine.proc.append({'snap': look, 'tasks': [{'t': 10, 'g': 10, 'comm': 'reader', 's': 'R', 'kt': 0, 'cpu': 0, 'ps': '-1',
                                                      'stack': ['a', 'entry']}]})
        machine.switch(0, 10)
        machine.told(look)
        machine.begin(11)
        self.assertEqual(machine.log()['snapshots of moving tasks'], 1)
        self.assertNotIn('call 10 a', machine.prologue())

    def test_a_patch_that_was_on_has_its_leg(self) -> None:
        machine = Kernel(before={'p': 'on'})
        machine.snapshot(10, stacks={10: ['schedule', 'new_a [p]', 'entry']})
        machine.begin(11, state=0)
        self.assertEqual([event for event in machine.prologue() if event.split()[-1] not in ('99', '11', '65535', '65534')],
                         ['enter 10', 'sleep 10', 'enable', 'walk', 'wake 10', 'call 10 a', 'sleep 10'])
        self.assertEqual([leg.word for leg in machine.converted().expectation.legs], ['enable', 'disable'])

    def test_a_transition_that_was_under_way(self) -> None:
        """10 sleeps in a and hasn't gone over, 11 runs and hasn't, 12 has."""
        machine = Kernel(before={'p': 'patching'})
        machine.snapshot(10, 11, 12, stacks={10: ['schedule', 'a', 'entry']}, states={10: 0, 11: 0, 12: 1})
        machine.sys_exit(11)
        machine.update(11, 0)
        self.assertEqual([event for event in machine.prologue() if event.split()[-1] not in ('99', '65535', '65534')],
                         ['enter 10', 'sleep 10', 'enter 11', 'sleep 11', 'enter 12', 'sleep 12',
                          'wake 10', 'call 10 a', 'sleep 10', 'wake 11', 'enable', 'walk'])
        self.assertEqual(machine.decisions('over')[:1], ['over [walk] 12 told'])
        self.assertEqual(machine.decisions('over')[-1], 'over [exit 11] 11 exit')

    def test_a_disable_that_was_under_way(self) -> None:
        machine = Kernel(before={'p': 'unpatching'})
        machine.snapshot(10, stacks={10: ['schedule', 'new_a [p]', 'entry']}, states={10: 1})
        machine.walk(20, [(10, 1, EADDRINUSE)], target=0)
        controls = [event for event in machine.prologue() if event in ('enable', 'disable', 'walk', 'call 10 a')]
        self.assertEqual(controls, ['enable', 'walk', 'call 10 a', 'disable', 'walk'])

    def test_a_check_before_the_look_tells_the_state(self) -> None:
        machine = Kernel(before={'p': 'patching'})
        machine.walk(20, [(10, 0, 0)])
        machine.snapshot(10, states={10: 1})
        self.assertIn('over [walk] 10 walk kernel', machine.decisions('over'))
        self.assertIn('wake 10', machine.prologue())        # it waited as the recording began

    def test_an_update_before_the_look_tells_it_too(self) -> None:
        machine = Kernel(before={'p': 'patching'})
        machine.update(10, 0)
        machine.snapshot(10, states={10: 1})
        self.assertIn('exit 10', machine.prologue() + machine.events(10))
        self.assertEqual(machine.decisions('over')[-1], 'over [exit 10] 10 exit')

    def test_a_look_before_the_first_check_counts(self) -> None:
        machine = Kernel(before={'p': 'patching'})
        machine.snapshot(10, 11, states={10: 0, 11: 1})
        machine.walk(20, [(12, 0, 0)])
        prologue = machine.prologue()
        self.assertIn('wake 10', prologue)
        self.assertNotIn('wake 11', prologue)
        self.assertIn('wake 12', prologue)                  # of which the walk alone tells

    def test_a_parent_that_went_over_has_children_that_are(self) -> None:
        machine = Kernel(before={'p': 'patching'})
        machine.snapshot(10, states={10: 0})
        machine.switch(0, 10)
        machine.sys_exit(10)
        machine.update(10, 0)
        machine.sys_enter(10)
        machine.fork(10, 12)
        self.assertEqual(machine.decisions('born'), ['born [fork 10 12 own] 12 over'])

    def test_calls_that_the_look_doesnt_show(self) -> None:
        machine = Kernel()
        machine.switch(0, 10)
        machine.call(10, 'b')
        machine.switch(10, 0)
        machine.snapshot(10, stacks={10: ['schedule', 'a', 'entry']})
        machine.begin(11)
        self.assertEqual(machine.log()['snapshots that don\'t fit the calls'], 1)
        self.assertNotIn('call 10 a', machine.prologue())

    def test_a_look_behind_a_way_out_says_nothing_of_the_beginning(self) -> None:
        machine = Kernel()
        machine.switch(0, 10)
        machine.sys_exit(10)
        machine.sys_enter(10)
        machine.call(10, 'a')
        machine.switch(10, 0)
        machine.snapshot(10, stacks={10: ['schedule', 'a', 'entry']})
        machine.begin(11)
        self.assertEqual(machine.events(10)[-5:], ['exit 10', 'enter 10', 'call 10 a', 'sleep 10', 'enable'])

    def test_an_idle_task_that_only_a_walk_tells_of(self) -> None:
        """CPU 1 has records of others, so its idle task is off it; nothing runs on CPU 2, so that one's is on it."""
        machine = Kernel()
        machine.snapshot(10, 11, 20)
        machine.begin(11)
        machine.switch(0, 20)
        machine.probe('walk', 20, 'target=1')
        machine.check(20, 0, 0, 0, on=1)
        machine.check(20, 0, 0, EBUSY, on=2)
        machine.probe('walked', 20)
        self.assertIn('sleep 65534', machine.prologue())
        self.assertNotIn('sleep 65533', machine.prologue())

    def test_children_of_the_transition_that_was_under_way(self) -> None:
        machine = Kernel(before={'p': 'patching'})
        machine.snapshot(10, 11, states={10: 0, 11: 1})
        machine.switch(0, 10)
        machine.fork(10, 12)
        machine.fork(11, 13, cpu=1)
        self.assertEqual(machine.decisions('born'), ['born [fork 10 12 own] 12 waiting', 'born [fork 11 13 own] 13 over'])

    def test_the_kernels_list_of_patches_tells_names_and_order(self) -> None:
        machine = Kernel(before={'q': 'on', 'p': 'patching'})
        machine.meta['modules'] = {}
        machine.probe('m0_0_0_1', 99, 'mod="q" obj=(fault) o0="b" n0=fresh+0x0/0x45 [q]')
        machine.probe('m1_0_0_1', 99, 'mod="p" obj=(fault) o0="a" n0=better+0x0/0x45 [p]')
        machine.snapshot(10, stacks={10: ['schedule', 'fresh [q]', 'entry']}, states={10: 0})
        self.assertIn('patch 1 b\npatch 2 a\n', machine.converted().trace)
        self.assertIn('call 10 b', machine.prologue())

    def test_a_new_function_without_a_name_is_told_by_likeness(self) -> None:
        machine = Kernel(before={'p': 'on'})
        machine.meta['modules'] = {}
        machine.snapshot(10, stacks={10: ['schedule', 'livepatch_a [p]', 'entry']})
        machine.begin(11, state=0)
        self.assertIn('call 10 a', machine.prologue())


class LeastRecorded(unittest.TestCase):
    """Without the scheduler's switches the verdicts tell the modes."""

    def test_busy_is_on_a_cpu_and_anything_else_off_it(self) -> None:
        machine = Kernel(switches=False, calls=False)
        machine.snapshot(10, 11, 20)
        machine.begin(11)
        machine.walk(20, [(10, 0, EBUSY)])
        machine.walk(20, [(10, 0, EADDRINUSE)])
        machine.walk(20, [(10, 0, 0)])
        self.assertEqual(machine.events(10), ['enable', 'wake 10', 'walk', 'call 10 a', 'sleep 10', 'walk', 'wake 10', 'ret 10',
                                              'sleep 10', 'walk'])

    def test_a_task_with_a_record_is_on_a_cpu(self) -> None:
        machine = Kernel(switches=False, calls=False)
        machine.snapshot(10, 11, 20)
        machine.begin(11)
        machine.update(10, 0)
        self.assertEqual(machine.events(10), ['enable', 'wake 10', 'exit 10'])


class Words(unittest.TestCase):
    def test_what_is_said(self) -> None:
        with tempfile.TemporaryDirectory() as folder:
            base = os.path.join(folder, 'x')
            status, said, error = outcome(['convert', data('recordings', 'attach-enable.rec'), base])
            self.assertEqual((status, error), (0, ''))
            self.assertRegex(said, f'^{base}.lptrace: .*[0-9]+ events, [0-9]+ tasks, [0-9]+ events left out\n$')
            self.assertEqual(sorted(os.listdir(folder)), ['x.expect', 'x.lptrace', 'x.names'])

    def test_a_trace_that_no_lpt_takes_is_refused(self) -> None:
        machine = Kernel()
        machine.snapshot(10)
        machine.begin(11)
        with mock.patch.object(output, 'MOST_EVENTS', 3):
            with self.assertRaisesRegex(Refused, 'events, and a trace has 3 at most: convert it without --whole'):
                machine.converted()
            with self.assertRaisesRegex(Refused, 'a trace has 3 at most$'):
                machine.converted(whole=False)


class Looks(unittest.TestCase):
    def test_times_and_marks(self) -> None:
        machine = Kernel()
        machine.snapshot(10, 11)
        machine.time(5.25)
        machine.begin(11)
        machine.switch(0, 10, cpu=1)
        machine.time(5.5)
        names = machine.converted().names
        self.assertEqual((names['times'], names['marks']),
                         ([[names.prologue, 5.25], [names.prologue + 3, 5.5]], [5.25, 5.5]))

    def test_samples_and_stacks(self) -> None:
        machine = Kernel()
        machine.snapshot(10, 11)
        machine.begin(11)
        look = machine.ask()
        machine.switch(0, 10, cpu=1)
        machine.sample(look, {10: '0', 777: '0'}, {10: ['schedule', 'entry']})
        machine.told(look)
        result = machine.converted()
        shown = [decision for decision in result.expectation.decisions if decision.word == 'shown']
        self.assertEqual([(d.after - result.names.prologue, d.event - result.names.prologue, d.task, d.rest) for d in shown],
                         [(1, 3, 10, ('0',))])
        self.assertEqual(result.names['stacks']['10'][-1], [result.names.prologue + 3, ['schedule', 'entry'], 'S'])


class Whole(unittest.TestCase):
    @needs_lpt
    def test_a_transition_from_before_agrees_with_the_engine(self) -> None:
        for switches in (True, False):
            machine = Kernel(before={'p': 'patching'}, switches=switches, calls=switches)
            machine.snapshot(10, 11, 12, 20, stacks={10: ['schedule', 'a', 'entry']}, states={10: 0, 11: 0, 12: 1, 20: 1})
            if switches:
                machine.switch(0, 11)
                machine.switch(0, 20, cpu=1)
            machine.walk(20, [(10, 0, EADDRINUSE), (11, 0, EBUSY)], cpu=1)
            if switches:
                machine.sys_exit(11)
                machine.switch(20, 10, cpu=1)
                machine.sys_exit(10, cpu=1)
            machine.update(11, 0)
            machine.update(10, 0, cpu=1)
            if switches:
                machine.switch(10, 20, 'R', cpu=1)
            machine.walk(20, completes=True, cpu=1)
            result = machine.converted()
            case = Case(parse(result.trace), result.expectation, result.names, report.run('hybrid', result.trace))
            self.assertEqual(differences(case), [])
            self.assertIsNotNone(case.report.legs[-1].complete)


if __name__ == '__main__':
    unittest.main()
