"""One point for what takes time: what other CPUs did while a walk or an opening lasted, put before or after it."""
import unittest

from recording_maker import EADDRINUSE, EBUSY, Kernel, kernel, loaded

from lpt_live.errors import Refused


def walker(release: str = '6.1.0') -> Kernel:
    """20, which walks from here on, is on a CPU."""
    machine = loaded(release)
    machine.switch(0, 20)
    return machine


def walker_beside_an_exit() -> Kernel:
    """20 begins a walk while 11 is on its way out of the kernel."""
    machine = walker()
    machine.switch(0, 11, cpu=1)
    machine.sys_exit(11, cpu=1)
    machine.probe('walk', 20, 'target=1')
    return machine


def out_and_in(machine: Kernel, task: int) -> None:
    """A task on CPU 1 leaves the kernel, where it switches itself, and enters it again."""
    machine.sys_exit(task, cpu=1)
    machine.update(task, 0, cpu=1)
    machine.sys_enter(task, cpu=1)


class Windows(unittest.TestCase):
    """What other CPUs did while a walk or an opening lasted."""

    def test_what_came_before_its_check_goes_before_the_walk(self) -> None:
        machine = walker()
        machine.probe('walk', 20, 'target=1')
        machine.switch(0, 11, cpu=1)
        machine.check(20, 11, 0, EBUSY)
        machine.switch(11, 0, cpu=1)
        machine.check(20, 10, 0, EADDRINUSE)
        machine.probe('walked', 20)
        self.assertEqual(machine.events(10, 11)[-4:], ['sleep 11', 'wake 11', 'walk', 'sleep 11'])

    def test_a_task_that_switched_itself_goes_before_the_walk_up_to_there(self) -> None:
        machine = walker()
        machine.switch(0, 11, cpu=1)
        machine.probe('walk', 20, 'target=1')
        out_and_in(machine, 11)
        machine.check(20, 10, 0, EADDRINUSE)
        machine.probe('walked', 20)
        self.assertEqual(machine.events(11)[-4:], ['wake 11', 'exit 11', 'walk', 'enter 11'])

    def test_in_an_opening_what_came_before_the_own_check_goes_before_it(self) -> None:
        machine = kernel()
        machine.switch(0, 11)
        machine.switch(0, 10, cpu=1)
        machine.probe('init', 11, 'mod="p" state=1 replace=0')
        machine.probe('start', 11, 'target=1')
        out_and_in(machine, 10)
        machine.probe('started', 11)
        self.assertEqual(machine.events(10)[-5:], ['wake 10', 'ret 10', 'enable', 'exit 10', 'enter 10'])

    def test_in_an_opening_a_task_off_the_target_goes_before_it(self) -> None:
        machine = kernel()
        machine.switch(0, 11)
        machine.probe('init', 11, 'mod="p" state=1 replace=0')
        machine.probe('start', 11, 'target=1')
        machine.switch(0, 10, cpu=1)
        machine.probe('started', 11)
        self.assertEqual(machine.events(10)[-2:], ['wake 10', 'enable'])

    def test_a_switch_before_a_reversal_turns_its_target_goes_before_it(self) -> None:
        """From 6.4 on: the flags are cleared first, so this check still went to the old target."""
        machine = walker('6.12.0')
        machine.walk(20, [(10, 0, EADDRINUSE)])
        machine.switch(0, 11, cpu=1)
        machine.probe('reverse', 20)
        out_and_in(machine, 11)
        machine.probe('start', 20, 'target=0')
        machine.probe('started', 20)
        self.assertEqual(machine.events(11)[-3:], ['exit 11', 'enter 11', 'reverse'])
        self.assertEqual(machine.decisions('over'), ['over [exit 11] 11 exit'])

    def test_a_check_overtakes_an_update(self) -> None:
        """The probe at the update's entry fires before the flag is cleared; the walk's check came in between."""
        machine = walker_beside_an_exit()
        machine.update(11, 0, cpu=1)
        machine.check(20, 11, 0, EBUSY)
        machine.probe('walked', 20)
        machine.sys_enter(11, cpu=1)
        self.assertEqual(machine.events(11)[-3:], ['walk', 'exit 11', 'enter 11'])
        self.assertEqual(machine.decisions('over', 'stays'), ['stays [walk] 11 busy', 'over [exit 11] 11 exit'])

    def test_a_check_that_switches_leaves_the_update_nothing(self) -> None:
        machine = walker_beside_an_exit()
        machine.update(11, 0, cpu=1)
        machine.check(20, 11, 0, 0)
        machine.probe('walked', 20)
        machine.switch(11, 0, 'R', cpu=1)
        self.assertEqual(machine.decisions('over', 'idle-update'), ['over [walk] 11 walk edge', 'idle-update [exit 11] 11 1'])

    def test_in_a_reversal_who_has_gone_over_goes_before_it_and_who_hasnt_after(self) -> None:
        machine = walker()
        machine.switch(0, 11, cpu=1)
        out_and_in(machine, 11)
        machine.walk(20, [(10, 0, EADDRINUSE)])
        machine.probe('reverse', 20)
        machine.switch(11, 10, cpu=1)           # within: 11 is off the new target, 10 is on it
        machine.probe('start', 20, 'target=0')
        machine.probe('started', 20)
        self.assertEqual(machine.events(10, 11)[-3:], ['sleep 11', 'reverse', 'wake 10'])

    def test_who_a_walk_switched_and_their_children_have_gone_over_too(self) -> None:
        machine = walker()
        machine.switch(0, 11, cpu=1)
        machine.walk(20, [(10, 0, 0), (11, 0, EBUSY)])
        machine.switch(11, 10, cpu=1)
        machine.fork(10, 12, cpu=1)
        machine.probe('reverse', 20)
        machine.switch(10, 12, cpu=1)
        machine.switch(12, 11, cpu=1)
        machine.probe('start', 20, 'target=0')
        machine.probe('started', 20)
        self.assertEqual(machine.events(10, 11, 12)[-5:], ['sleep 10', 'wake 12', 'sleep 12', 'reverse', 'wake 11'])

    def test_a_child_that_is_born_within_a_reversal_is_where_its_parent_is(self) -> None:
        machine = walker()
        machine.walk(20, [(10, 0, 0), (11, 0, EADDRINUSE)])
        machine.switch(0, 10, cpu=1)
        machine.probe('reverse', 20)
        machine.fork(10, 12, cpu=1)
        machine.switch(10, 12, cpu=1)
        machine.probe('start', 20, 'target=0')
        machine.probe('started', 20)
        self.assertEqual(machine.events(10, 12)[-4:], ['sleep 12', 'sleep 10', 'wake 12', 'reverse'])

    def test_in_the_next_opening_everyone_is_off_the_target_again(self) -> None:
        machine = walker()
        machine.walk(20, [(10, 0, 0), (11, 0, 0)], completes=True)
        machine.probe('init', 20, 'mod="q" state=1 replace=0')
        machine.probe('start', 20, 'target=1')
        machine.switch(0, 10, cpu=1)
        machine.probe('started', 20)
        self.assertEqual(machine.events(10)[-2:], ['wake 10', 'enable'])

    def test_in_a_walk_a_task_that_it_didnt_look_at_goes_after_it(self) -> None:
        machine = walker()
        machine.probe('walk', 20, 'target=1')
        machine.switch(0, 11, cpu=1)
        machine.check(20, 10, 0, EADDRINUSE)
        machine.probe('walked', 20)
        self.assertEqual(machine.events(11)[-2:], ['walk', 'wake 11'])

    def test_an_own_order_that_no_point_keeps_is_refused(self) -> None:
        """A child that acts before the walk's check of it, born of a parent whose fork comes after the parent's check."""
        machine = walker()
        machine.switch(0, 11, cpu=1)
        machine.probe('walk', 20, 'target=1')
        machine.check(20, 11, 0, EBUSY)
        machine.fork(11, 12, cpu=1)
        machine.switch(11, 12, cpu=1)
        machine.check(20, 12, 0, EBUSY)
        machine.probe('walked', 20)
        with self.assertRaisesRegex(Refused, 'keeps the child\'s acts after its birth'):
            machine.converted()

    def test_an_update_overtakes_a_check(self) -> None:
        """The check began while the task still waited, and then found it over: it is none."""
        machine = walker_beside_an_exit()
        machine.update(11, 0, cpu=1)
        machine.sys_enter(11, cpu=1)
        machine.check(20, 11, 1, 0)
        machine.probe('walked', 20)
        self.assertEqual(machine.events(11)[-3:], ['exit 11', 'walk', 'enter 11'])
        self.assertEqual(machine.decisions('over'), ['over [exit 11] 11 exit'])

    def test_a_look_within_a_walk_fits_both_sides(self) -> None:
        machine = walker()
        machine.probe('walk', 20, 'target=1')
        look = machine.ask()
        machine.sample(look, {11: '0'})
        machine.told(look)
        machine.check(20, 11, 0, 0)
        machine.probe('walked', 20)
        result = machine.converted()
        walk = next(decision.event for decision in result.expectation.decisions if decision.word == 'over')
        shown = next(decision for decision in result.expectation.decisions if decision.word == 'shown')
        self.assertLess(shown.after, walk)
        self.assertGreaterEqual(shown.event, walk)


if __name__ == '__main__':
    unittest.main()
