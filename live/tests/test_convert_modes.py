"""Where a task is between its records: modes that other records show, and the prologue's."""
import unittest

from recording_maker import EADDRINUSE, EBUSY, Kernel, kernel, loaded


def running() -> Kernel:
    """p is loaded; 10 is on CPU 0 in a system call, 20 on CPU 1."""
    machine = kernel()
    machine.switch(0, 11)
    machine.begin(11)
    machine.switch(11, 10)
    machine.sys_exit(10)
    machine.sys_enter(10)
    machine.switch(0, 20, cpu=1)
    return machine


class OnTheWayOut(unittest.TestCase):
    def test_the_exit_stands_where_the_last_system_call_was_over(self) -> None:
        machine = running()
        machine.walk(20, [(20, 0, 0)], cpu=1)
        machine.sys_exit(10)
        machine.walk(20, [(10, 0, EBUSY)], cpu=1)
        machine.sys_enter(10)
        self.assertEqual(machine.events(10)[-4:], ['walk', 'exit 10', 'walk', 'enter 10'])

    def test_in_a_system_call_it_is_in_the_kernel(self) -> None:
        machine = running()
        machine.switch(10, 0)
        machine.walk(20, [(10, 0, 0)], cpu=1)
        self.assertEqual(machine.decisions('over'), ['over [walk] 10 walk kernel'])

    def test_preempted_in_user_space_it_is_on_its_way_out(self) -> None:
        machine = running()
        machine.sys_exit(10)
        machine.update(10, 0, pending=False)
        machine.switch(10, 0, 'R')
        machine.walk(20, [(10, 0, 0)], cpu=1)
        machine.switch(0, 10)
        machine.walk(20, [(10, 1, 0)], cpu=1)
        machine.sys_enter(10)
        self.assertEqual(machine.decisions('over'), ['over [walk] 10 walk edge'])
        self.assertEqual(machine.events(10)[-7:], ['enter 10', 'sleep 10', 'walk', 'wake 10', 'exit 10', 'walk', 'enter 10'])

    def test_a_record_of_the_kernel_ends_its_stay_in_user_space(self) -> None:
        for name, last in (('exit', 'enter 10'), ('dying', 'enter 10'), ('fork', 'fork 10 12 own')):
            machine = running()
            machine.sys_exit(10)
            machine.update(10, 0)
            if name == 'exit':
                machine.sys_exit(10)
            elif name == 'dying':
                machine.at('sched_process_exit', 10, 'comm=reader pid=10 prio=120')
            else:
                machine.fork(10, 12)
            machine.walk(20, [(20, 0, 0)], cpu=1)
            self.assertEqual(machine.events(10)[-2:], [last, 'walk'], name)
            self.assertIn('enter 10', machine.events(10)[-3:])


class Ends(unittest.TestCase):
    def test_killed_in_user_space(self) -> None:
        machine = running()
        machine.sys_exit(10)
        machine.update(10, 0)
        machine.switch(10, 0, 'X')
        self.assertEqual(machine.events(10)[-3:], ['exit 10', 'enter 10', 'die 10'])

    def test_killed_in_a_patched_function(self) -> None:
        machine = running()
        machine.call(10, 'a')
        machine.switch(10, 0, 'X')
        self.assertEqual(machine.events(10)[-3:], ['call 10 a', 'ret 10', 'die 10'])

    def test_released_while_asleep_or_in_user_space(self) -> None:
        machine = running()
        machine.switch(10, 0)
        machine.release(10, 20, cpu=1)
        self.assertEqual(machine.events(10)[-3:], ['sleep 10', 'wake 10', 'die 10'])
        machine = running()
        machine.sys_exit(10)
        machine.update(10, 0)
        machine.release(10, 20, cpu=1)
        self.assertEqual(machine.events(10)[-3:], ['exit 10', 'enter 10', 'die 10'])
        self.assertEqual(machine.log()['released before the last switch'], 1)

    def test_released_after_the_last_switch_is_nothing_new(self) -> None:
        machine = running()
        machine.switch(10, 0, 'X')
        machine.release(10, 20, cpu=1)
        self.assertEqual(machine.events(10)[-1], 'die 10')
        self.assertEqual(machine.log()['records of the dead'], 0)

    def test_a_record_of_a_dead_task_is_counted(self) -> None:
        machine = running()
        machine.release(10, 20, cpu=1)
        machine.sys_exit(10)
        machine.switch(10, 0, 'X')
        self.assertEqual(machine.events(10)[-1], 'die 10')
        self.assertEqual(machine.log()['records of the dead'], 1)


class Reversals(unittest.TestCase):
    def test_a_child_that_was_born_over_keeps_no_reversal(self) -> None:
        machine = running()
        machine.probe('walk', 20, 'target=1', cpu=1)
        for pid, on in ((11, 0), (20, 1), (99, 1), (0, 0), (0, 1)):
            machine.check(20, pid, 0, 0, cpu=1, on=on)
        machine.probe('walked', 20, cpu=1)
        machine.sys_exit(10)
        machine.update(10, 0)
        machine.sys_enter(10)
        machine.fork(10, 12)
        machine.reverse(20, 0, cpu=1)
        self.assertEqual(machine.events(20)[-1], 'disable')
        self.assertEqual(machine.decisions('late'), ['late [disable] 0 reverse'])


class Prologue(unittest.TestCase):
    def test_idle_tasks_never_enter(self) -> None:
        machine = Kernel()
        machine.snapshot(10)
        machine.begin(11)
        machine.switch(11, 0)
        self.assertEqual([event for event in machine.prologue() + machine.events() if event.endswith(' 65535')],
                         ['sleep 65535', 'wake 65535'])

    def test_one_that_runs_in_what_keeps_it_back(self) -> None:
        machine = Kernel(before={'p': 'patching'})
        machine.snapshot(11, stacks={11: ['a', 'entry']}, states={11: 0})
        machine.switch(11, 0)
        self.assertEqual([event for event in machine.prologue() if event.endswith((' 11', ' a'))],
                         ['enter 11', 'sleep 11', 'wake 11', 'call 11 a'])
        self.assertEqual(machine.events(11), ['sleep 11'])

    def test_those_in_user_space(self) -> None:
        machine = Kernel(before={'p': 'patching'})
        machine.snapshot(10, 11, states={10: 0, 11: 1})
        machine.sys_enter(10)
        machine.sys_enter(11, cpu=1)
        for task in (10, 11):
            self.assertEqual([event for event in machine.prologue() if event.endswith(f' {task}')],
                             [f'enter {task}', f'sleep {task}', f'wake {task}', f'exit {task}'])
            self.assertEqual(machine.events(task), [f'enter {task}'])

    def test_sides_of_legs_from_before(self) -> None:
        machine = Kernel(before={'p': 'unpatching'})
        machine.snapshot(10, states={10: 1})
        self.assertEqual([(leg.word, leg.side) for leg in machine.converted().expectation.legs],
                         [('enable', 'new'), ('disable', 'old')])
        machine = Kernel(before={'p': 'on', 'q': 'patching'})
        machine.snapshot(10, states={10: 0})
        self.assertEqual([(leg.word, leg.side) for leg in machine.converted().expectation.legs],
                         [('enable', '1'), ('enable', '2')])

    def test_a_reversal_of_a_transition_from_before(self) -> None:
        for state, word in ((0, 'reverse'), (1, 'disable')):        # late where nobody waits any more
            machine = Kernel(before={'p': 'patching'})
            machine.snapshot(10, states={10: state})
            machine.reverse(20, 0)
            self.assertEqual(machine.events(20), [word])

    def test_names_come_of_the_look_where_no_switch_tells_them(self) -> None:
        machine = loaded()
        machine.proc[0]['tasks'][0]['g'] = 9
        who = machine.converted().names.tasks[10]
        self.assertEqual((who.comm, who.tgid, who.kind), ('reader', 9, 'user'))
        self.assertEqual(machine.converted().names.tasks[65535].cpu, 0)

    def test_each_pid_above_all_numbers_has_another_one(self) -> None:
        machine = running()
        for pid in (70000, 70001, 70002):
            machine.fork(10, pid)
        self.assertEqual([machine.converted().names.tasks[number].pid for number in (64511, 64510, 64509)], [70000, 70001, 70002])

    def test_stacks_of_the_beginning(self) -> None:
        machine = Kernel(before={'p': 'patching'})
        machine.snapshot(10, 11, stacks={10: ['schedule', 'a', 'entry']}, states={10: 0, 11: 1})
        machine.walk(20, [(10, 0, EADDRINUSE)])
        self.assertEqual(machine.converted().names['stacks']['10'][0], [0, ['schedule', 'a', 'entry'], 'S'])


if __name__ == '__main__':
    unittest.main()
