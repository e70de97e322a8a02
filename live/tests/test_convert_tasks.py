"""The converter's rules for the scheduler, system calls, births, ends and calls: what the kernel recorded, and the events
that say it."""
import unittest

from recording_maker import Kernel


def kernel() -> Kernel:
    """A machine at rest: 10 and 11 in a read, 20 waiting for work; then p is loaded by 11, and nobody has been looked at."""
    machine = Kernel()
    machine.snapshot(10, 11, 20)
    machine.switch(0, 11)
    machine.begin(11)
    machine.sys_exit(11)
    machine.switch(11, 0)
    return machine


class Scheduler(unittest.TestCase):
    def test_a_switch_is_sleep_and_wake(self) -> None:
        machine = kernel()
        machine.switch(0, 20)
        machine.switch(20, 10)
        self.assertEqual(machine.events(20, 10, 65535)[-4:], ['sleep 65535', 'wake 20', 'sleep 20', 'wake 10'])

    def test_preempted_in_user_space_is_enter_and_sleep(self) -> None:
        machine = kernel()
        machine.switch(0, 10)
        machine.sys_exit(10)
        machine.update(10, 0)           # so it is in user space
        machine.switch(10, 0, 'R')
        self.assertEqual(machine.events(10), ['enable', 'wake 10', 'exit 10', 'enter 10', 'sleep 10'])

    def test_a_task_in_state_z_is_dead(self) -> None:
        machine = kernel()
        machine.switch(0, 10)
        machine.at('sched_process_exit', 10, 'comm=reader pid=10 prio=120')
        machine.switch(10, 0, 'Z')
        machine.release(10, 11)
        self.assertEqual(machine.events(10)[-2:], ['wake 10', 'die 10'])

    def test_released_before_its_last_switch_is_dead_there(self) -> None:
        machine = kernel()
        machine.switch(0, 10)
        machine.switch(0, 20, cpu=1)
        machine.release(10, 20, cpu=1)
        machine.walk(20, [(20, 0, 0)], cpu=1)
        machine.switch(10, 0, 'X')
        self.assertEqual(machine.events(10)[-3:], ['wake 10', 'die 10', 'walk'])


class SystemCalls(unittest.TestCase):
    def test_enter_has_the_exit_that_was_before_it(self) -> None:
        machine = kernel()
        machine.switch(0, 10)
        machine.sys_exit(10)
        machine.sys_enter(10)
        machine.sys_exit(10)
        machine.sys_enter(10)
        self.assertEqual(machine.events(10), ['enable', 'wake 10', 'exit 10', 'enter 10', 'exit 10', 'enter 10'])

    def test_the_exit_stands_where_the_system_call_was_over(self) -> None:
        machine = kernel()
        machine.switch(0, 10)
        machine.sys_exit(10)
        machine.switch(0, 20, cpu=1)
        machine.walk(20, [(20, 0, 0)], cpu=1)
        machine.sys_enter(10)
        self.assertEqual(machine.events(10)[-4:], ['wake 10', 'exit 10', 'walk', 'enter 10'])

    def test_without_a_further_record_it_is_still_on_its_way_out(self) -> None:
        machine = kernel()
        machine.switch(0, 10)
        machine.sys_exit(10)
        self.assertEqual(machine.events(10)[-1], 'wake 10')

    def test_an_interrupts_exit_moves_to_where_it_came_back(self) -> None:
        machine = kernel()
        machine.switch(0, 10)
        machine.sys_exit(10)
        machine.switch(10, 0, 'R')      # preempted on its way out
        machine.switch(0, 20)
        machine.walk(20, [(20, 0, 0)])
        machine.switch(20, 10)
        machine.sys_enter(10)
        self.assertEqual(machine.events(10)[-6:], ['wake 10', 'sleep 10', 'walk', 'wake 10', 'exit 10', 'enter 10'])

    def test_a_task_in_do_exit_wont_be_in_user_space_again(self) -> None:
        machine = kernel()
        machine.switch(0, 10)
        machine.sys_exit(10)
        machine.at('sched_process_exit', 10, 'comm=reader pid=10 prio=120')
        machine.switch(10, 0, 'X')
        self.assertEqual(machine.events(10)[-2:], ['wake 10', 'die 10'])


class Births(unittest.TestCase):
    def test_a_process(self) -> None:
        machine = kernel()
        machine.switch(0, 10)
        machine.fork(10, 12)
        machine.switch(10, 12)
        self.assertEqual(machine.events(10, 12)[-5:], ['wake 10', 'fork 10 12 own', 'sleep 12', 'sleep 10', 'wake 12'])
        self.assertEqual(machine.decisions('born'), ['born [fork 10 12 own] 12 waiting'])

    def test_a_thread_of_a_task_that_is_over(self) -> None:
        machine = kernel()
        machine.switch(0, 10)
        machine.sys_exit(10)
        machine.update(10, 0)
        machine.sys_enter(10)
        machine.fork(10, 12, thread=True)
        self.assertEqual(machine.events(10, 12)[-2:], ['fork 10 12 share', 'sleep 12'])
        self.assertEqual(machine.decisions('born'), ['born [fork 10 12 share] 12 over'])
        self.assertEqual(machine.converted().names.tasks[12].tgid, 10)

    def test_a_fork_that_failed_leaves_nothing(self) -> None:
        machine = kernel()
        machine.switch(0, 10)
        machine.fork(10, 12, succeeds=False)
        self.assertEqual(machine.events(10)[-1], 'wake 10')
        self.assertNotIn(12, machine.converted().names.tasks)

    def test_a_pid_that_is_used_again_is_another_task(self) -> None:
        machine = kernel()
        machine.switch(0, 10)
        machine.at('sched_process_exit', 10, 'comm=reader pid=10 prio=120')
        machine.switch(10, 0, 'X')
        machine.switch(0, 11)
        machine.fork(11, 10)
        self.assertEqual(machine.events(11)[-1], 'fork 11 64511 own')
        self.assertEqual(machine.converted().names.tasks[64511].pid, 10)

    def test_a_pid_above_all_numbers_has_one_of_its_own(self) -> None:
        machine = kernel()
        machine.switch(0, 10)
        machine.fork(10, 4000000)
        self.assertEqual(machine.converted().names.tasks[64511].pid, 4000000)


class Calls(unittest.TestCase):
    def machine(self) -> Kernel:
        """10 is on a CPU, in a read."""
        machine = kernel()
        machine.switch(0, 10)
        return machine

    def test_a_call_ends_those_at_or_below_its_place(self) -> None:
        machine = self.machine()
        machine.call(10, 'a', 0xff00)
        machine.call(10, 'b', 0xfe00)       # within a
        machine.call(10, 'b', 0xfe00)       # the same place again: that call had returned
        machine.call(10, 'a', 0xff80)       # above both
        self.assertEqual(machine.events(10)[-8:], ['wake 10', 'call 10 a', 'call 10 b', 'ret 10', 'call 10 b', 'ret 10', 'ret 10',
                                                   'call 10 a'])

    def test_the_end_of_the_system_call_ends_all(self) -> None:
        machine = self.machine()
        machine.call(10, 'a')
        machine.call(10, 'b', 0xfe00)
        machine.sys_exit(10)
        self.assertEqual(machine.events(10)[-4:], ['call 10 a', 'call 10 b', 'ret 10', 'ret 10'])

    def test_the_check_at_the_exit_ends_all(self) -> None:
        machine = self.machine()
        machine.call(10, 'a')
        machine.update(10, 0)
        self.assertEqual(machine.events(10)[-3:], ['call 10 a', 'ret 10', 'exit 10'])

    def test_a_call_from_an_interrupt_is_left_out(self) -> None:
        machine = self.machine()
        machine.call(10, 'a', flags='d.h1.')
        self.assertEqual(machine.events(10)[-1], 'wake 10')
        self.assertEqual(machine.log()['calls in interrupts, left out'], 1)

    def test_a_new_functions_entry_tells_the_version(self) -> None:
        machine = self.machine()
        machine.call(10, 'a')
        machine.sys_exit(10)
        machine.sys_enter(10)
        machine.call(10, 'a')
        machine.call(10, 'new_a')
        self.assertEqual(machine.decisions('ran'), ['ran [call 10 a] 10 old', 'ran [call 10 a] 10 new'])

    def test_a_new_functions_entry_belongs_to_its_own_call(self) -> None:
        machine = self.machine()
        machine.call(10, 'a')
        machine.call(10, 'other', 0xfe00)
        machine.call(10, 'new_a')
        self.assertEqual(machine.decisions('ran'), ['ran [call 10 a] 10 old'])
        self.assertEqual(machine.log()['new versions without a call'], 1)

    def test_another_patchs_new_function_is_of_no_call(self) -> None:
        machine = self.machine()
        machine.call(10, 'a')
        machine.call(10, 'new_b')
        machine.call(10, 'new_a')
        self.assertEqual(machine.decisions('ran'), ['ran [call 10 a] 10 new'])
        self.assertEqual(machine.log()['new versions without a call'], 1)

    def test_versions_are_told_only_where_all_new_functions_are_known(self) -> None:
        machine = self.machine()
        machine.meta['modules'] = {}
        machine.meta['after'] = {'p': {'enabled': '1', 'transition': '1', 'functions': [['vmlinux', 'a', 1]]}}
        machine.call(10, 'a')
        self.assertEqual(machine.decisions('ran'), [])

    def test_a_call_shows_that_its_task_is_in_the_kernel(self) -> None:
        machine = self.machine()
        machine.update(10, 0)
        machine.call(10, 'a')               # no system calls are recorded
        self.assertEqual(machine.events(10)[-3:], ['exit 10', 'enter 10', 'call 10 a'])

    def test_a_call_on_the_way_out_puts_the_exit_behind_it(self) -> None:
        machine = self.machine()
        machine.sys_exit(10)
        machine.call(10, 'a')
        machine.switch(0, 20, cpu=1)
        machine.walk(20, [(20, 0, 0)], cpu=1)
        machine.sys_enter(10)
        self.assertEqual(machine.events(10)[-5:], ['call 10 a', 'walk', 'ret 10', 'exit 10', 'enter 10'])

    def test_a_function_that_no_patch_has_tells_none(self) -> None:
        machine = self.machine()
        machine.call(10, 'other')
        self.assertEqual((machine.events(10)[-1], machine.decisions('ran')), ('call 10 other', []))


if __name__ == '__main__':
    unittest.main()
