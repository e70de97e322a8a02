"""`explain` of a recording, by one made by hand whose every line is known: times, hints, the kernel's word beside the engine's."""
import unittest
from typing import Any, Dict, List, Tuple

from explain_support import NOON, TRACE, names_data, page_lines, recorded
from support import needs_lpt

from lpt_live.errors import Refused, Usage
from lpt_live.explain.advice import advice
from lpt_live.explain.case import Case
from lpt_live.explain.clock import Clock
from lpt_live.explain.hints import by_signal, plain, what_ends
from lpt_live.explain.naming import RecordedNaming, plural
from lpt_live.names import Names


def clock(times: List[Any], prologue: int = 0) -> Clock:
    """A clock with these marks."""
    return Clock(Names({**names_data(), 'times': times, 'prologue': prologue}))


class Clocks(unittest.TestCase):
    """From events to times and back."""

    def test_between_two_marks(self) -> None:
        of = clock([[10, NOON], [20, NOON + 5]], prologue=4)
        self.assertEqual([of.when(event) for event in (4, 5, 10, 12, 20, 30)], [None, NOON, NOON, NOON + 1, NOON + 5, NOON + 5])
        self.assertEqual((of.of_day(NOON + 1.26), of.of_day(NOON - 0.02), of.zone()), ('12:00:01.3', '12:00:00.0', 'UTC'))

    def test_from_a_time_to_its_event(self) -> None:
        of = clock([[10, NOON], [20, NOON + 5]], prologue=4)
        self.assertEqual([of.event_at(word) for word in ('12:00:00', '12:00:01.0', '12:00:04.9', '12:00')], [10, 12, 19, 10])

    def test_past_midnight(self) -> None:
        late = NOON + 12 * 3600 - 1         # 23:59:59
        of = clock([[10, late], [20, late + 5]])
        self.assertEqual((of.event_at('23:59:59'), of.event_at('00:00:01')), (10, 14))

    def test_no_time_of_it(self) -> None:
        of = clock([[10, NOON], [20, NOON + 5]])
        for word in ('12:00:06', '11:00:00', '25:00:00', '12:61', 'a:b', '12:00:00:00', '-1:00', '12:00:nan'):
            with self.assertRaises(Usage, msg=word):
                of.event_at(word)
        with self.assertRaisesRegex(Usage, 'tells no times'):
            clock([]).event_at('12:00:00')


class Hints(unittest.TestCase):
    """What would help."""

    def test_functions_by_their_names_in_the_source(self) -> None:
        for entry, name in (('pipe_read', 'pipe_read'), ('box_a [klp_box]', 'box_a'), ('do_wait+0x56', 'do_wait'), ('__x64_sys_pause', 'pause'),
                            ('__do_sys_pause', 'pause'), ('futex_wait.isra.0', 'futex_wait'), ('ep_poll.part.0.cold', 'ep_poll')):
            self.assertEqual(plain(entry), name)

    def test_the_innermost_function_that_is_known(self) -> None:
        """A patched function isn't where the task sleeps: what it called is."""
        self.assertEqual(what_ends('vfs_read', ['pipe_read', 'vfs_read', 'ksys_read']), 'data or the end of file on its pipe')
        self.assertEqual(what_ends('__x64_sys_pause', ['__do_sys_pause', 'do_syscall_64']), 'any signal that it handles')
        self.assertEqual(what_ends('pipe_read', []), 'data or the end of file on its pipe')
        self.assertIsNone(what_ends('box_a', ['mystery', 'new_box_a [fix]', 'pipe_read'], 'fix'))
        self.assertIsNone(what_ends('vfs_read', ['mystery', 'vfs_read', 'pipe_read']))      # pipe_read called vfs_read: it says nothing

    def test_signals(self) -> None:
        self.assertIn('signals don\'t help', by_signal('D', 5))
        self.assertIn('kill -STOP 5, then kill -CONT 5', by_signal('S', 5))
        self.assertIn('it is stopped: kill -CONT 5', by_signal('T', 5))
        self.assertEqual(by_signal('?', 5), '')

    def test_nothing_is_advised_of_a_plain_trace(self) -> None:
        case = Case.__new__(Case)       # no engine is needed for that
        from lpt_live import trace
        from lpt_live.explain.naming import Naming
        case.trace = trace.parse(TRACE)
        self.assertEqual(advice(Naming(case), None, None, '', [], '', 2, 'asleep'), '')

    def test_plurals(self) -> None:
        self.assertEqual((plural(1, 'walk'), plural(0, 'walk'), plural(2, 'write or load', 'writes or loads')),
                         ('1 walk', '0 walks', '2 writes or loads'))


@needs_lpt
class Recorded(unittest.TestCase):
    """The page of the recording."""

    def page(self, *words: str, **changes: Any) -> str:
        """The page, some names changed."""
        return '\n'.join(page_lines(recorded(**changes), *words)) + '\n'

    def test_the_page(self) -> None:
        self.assertEqual(self.page('reverse').splitlines()[:32], [
            'Patch fix: pipe_read',
            'Recorded on 6.1.0-test; 4 tasks, 15 events, 12:00:00.0 to 12:00:04.0 UTC',
            '',
            'TRANSITION 1 of 1: patching, to the patched functions; opened 12:00:00.0 (event 7)',
            'COMPLETE 12:00:03.0 (event 14), 3.0 s after its opening.',
            'The kernel noticed at its next walk, 12:00:04.0 (1.0 s later); until then a second patch gets EBUSY.',
            'The kernel walked over the stacks 3 times.',
            'The kernel moved 4 tasks in it, the engine the same at the same events.',
            '',
            'WHO WAS LEFT after the first walk: 3 tasks of 4',
            '  reader (pid 70000)',
            '    is in pipe_read, which the patch replaces, since before the recording (event 2); 1 walk found it there, the last 12:00:01.0',
            '    stack: pipe_read < vfs_read',
            '    goes over once pipe_read has returned: as it leaves the kernel, or at a walk',
            '    to help: data or the end of file on its pipe; or kill -STOP 70000, then kill -CONT 70000 (after 15 walks the kernel sends a '
            'signal without content itself)',
            '    WENT OVER 12:00:03.0 (event 14), as it left the kernel, 3.0 s after the opening (2 walks refused it)',
            '  worker (pid 33, kernel thread)',
            '    was on a CPU at its last check; 1 walk found it busy, the last 12:00:01.0; now in the kernel on a CPU',
            '    goes over at the first walk that finds it off its CPU',
            '    WENT OVER 12:00:02.0 (event 11), at a walk, 2.0 s after the opening (1 walk refused it)',
            '  the idle task of CPU 0',
            '    was on a CPU at its last check; 1 walk found it busy, the last 12:00:01.0; now in the kernel on a CPU',
            '    goes over when its CPU goes through the idle loop',
            '    WENT OVER 12:00:01.3 (event 9), at its idle point, 1.3 s after the opening (1 walk refused it)',
            '',
            'WHAT IF it were turned round 12:00:01.0 (event 8): complete at the first walk',
            '',
            'THE SAME EVENTS under each model (with a Ksplice stop tried at each of the kernel\'s walks):',
            '  hybrid (Linux)             complete 12:00:03.0 (event 14), 3.0 s after the opening',
            '  leave-kernel (kGraft)      not complete, 2 still wait',
            '  all-at-once (Ksplice)      complete 12:00:04.0 (event 15), 4.0 s after the opening',
            '  immediate (no condition)   complete 12:00:01.0 (event 8), 1.0 s after the opening'])

    def test_names_that_arent_the_traces(self) -> None:
        tasks = names_data()['tasks']
        wrong: List[Tuple[Dict[str, Any], str]] = [({'tasks': {**tasks, '5': tasks['2']}}, 'other tasks'), ({'tasks': {'2': tasks['2']}}, 'other tasks'),
                             ({'prologue': 16}, 'other tasks'), ({'prologue': None}, 'can\'t be read'), ({'tasks': {'2': {}}}, 'can\'t be read')]
        for changes, why in wrong:
            with self.assertRaisesRegex(Refused, why):
                recorded(**changes)
        data = names_data()
        del data['times'], data['light']
        with self.assertRaisesRegex(Refused, 'the names lack times, light'):
            Case(TRACE, 'hybrid', Names(data), 'T')

    def test_another_moment(self) -> None:
        told = self.page('--at', '12:00:02.0')
        self.assertIn('WHO WAITED 12:00:02.0 (event 11): 1 task of 4\n', told)
        self.assertIn('; 2 walks found it there, the last 12:00:02.0\n', told)

    def test_a_kernel_that_decided_otherwise(self) -> None:
        """A move too early, and one that the kernel didn't make: the page must not say that they agree."""
        says = names_data()['kernel_says']
        told = self.page(kernel_says=[line.replace('over 14 2', 'over 11 2') for line in says])
        self.assertIn('CAUTION: the kernel and the engine differ in 2 moves: reader (pid 70000) at event 11, by the kernel alone; '
                      'reader (pid 70000) at event 14, by the engine alone (lpt-live verify tells all)\n', told)
        self.assertNotIn('the same at the same events', told)
        self.assertIn('by the engine alone', self.page(kernel_says=says[:-1]))

    def test_checks_at_cond_resched(self) -> None:
        """Linux 6.4 and later: said how many of the moves were there."""
        says = [line.replace('over 14 2 exit', 'over 14 2 resched') for line in names_data()['kernel_says']]
        told = self.page(kernel_says=says)
        self.assertIn('1 of these moves was at the task\'s own check at cond_resched (Linux 6.4 and later)', told)
        self.assertIn('WENT OVER 12:00:03.0 (event 14), at its own check, cond_resched, 3.0 s after the opening (2 walks refused it)\n', told)
        self.assertIn('goes over when its CPU goes through the idle loop\n', told)

    def test_what_the_recording_lacks(self) -> None:
        self.assertIn('missing: kernel exits\n', self.page(missing=['kernel exits']))
        self.assertIn('CAUTION: probes missed calls (walk 3); what follows may be wrong\n', self.page(missed={'walk': 3}))
        self.assertIn('times: the recorder told the time up to 2.5 s apart here; what lies between is estimated\n',
                      self.page(marks=[NOON, NOON + 2.5, NOON + 4]))
        self.assertIn('light: system calls weren\'t recorded, so between two checks a task may be elsewhere than it is said to be\n',
                      self.page(light=True))
        self.assertIn('(a light recording: kernel exits are missing, so this is too late)', self.page(light=True))
        self.assertIn('(calls weren\'t recorded, so this may be too early)', self.page(calls_known=False))

    def test_what_if_where_scheduling_is_unknown(self) -> None:
        """A recording of the least tells modes by verdicts alone: who "is on a CPU" between two walks mostly isn't."""
        at_two = ('--at', '12:00:02.0', 'reverse')
        self.assertIn('WHAT IF it were turned round 12:00:01.0 (event 8): complete at the first walk\n', self.page('reverse'))
        self.assertIn('(event 8): complete at the first walk, as far as is known: neither calls nor scheduling were recorded\n',
                      self.page('reverse', calls_known=False))
        text = TRACE.replace('sleep 3\nwalk\n', 'sleep 3\nwalk\nwake 4\ncall 4 pipe_read\nwake 3\n')
        told = '\n'.join(page_lines(recorded(text), '--at', '14', 'reverse'))
        self.assertIn('after one walk 3 tasks would hold up the way back: thread (pid 44, thread of 40, the recorder itself) in pipe_read, '
                      'worker (pid 33, kernel thread) on a CPU, the idle task of CPU 0 on a CPU', told)
        told = '\n'.join(page_lines(recorded(text, calls_known=False), '--at', '14', 'reverse'))
        self.assertIn('after one walk 1 task would hold up the way back: thread (pid 44, thread of 40, the recorder itself) in pipe_read; and '
                      'up to 2 tasks that were last seen on a CPU, as far as is known: neither calls nor scheduling were recorded', told)
        self.assertIn('after one walk up to 1 task that was last seen on a CPU would hold up the way back, as far as is known',
                      self.page(*at_two, calls_known=False))

    def test_refused_controls_and_unreliable_stacks(self) -> None:
        says = [*names_data()['kernel_says'], 'stays 11 3 unreliable', 'refused 10 0 enable_-16']
        told = self.page(kernel_says=says)
        self.assertIn('The kernel found the stack of worker (pid 33, kernel thread) unreliable 1 time.\n', told)
        self.assertIn('The kernel refused 1 write or load meanwhile, which the engine would take: 12:00:01.7 (event 10).\n', told)

    def test_the_kernels_log(self) -> None:
        """It dates an opening from before the recording, and tells of the kernel's signal."""
        told = self.page(messages=[[NOON + 2.5, 'livepatch: signaling remaining tasks']])
        self.assertIn('12:00:02.5 the kernel sent its signal without content to those who wait (its log: signaling remaining tasks)\n', told)
        before = self.page(prologue=8, began_in_transition=True, messages=[[NOON - 60, 'livepatch: \'fix\': starting patching transition']])
        self.assertIn('; opened 11:59:00.0 by the kernel\'s log, before the recording\n', before)
        self.assertIn('COMPLETE 12:00:03.0 (event 14), 63.0 s after its opening.\n', before)
        unknown = self.page(prologue=8, began_in_transition=True)
        self.assertIn('; opened before the recording (event 7)\n', unknown)
        self.assertIn('more than 3.0 s after its opening.\n', unknown)

    def test_a_transition_from_before_the_recording_alone(self) -> None:
        """One that was over as the recording began is no part of it."""
        from lpt_live.explain.case import transitions
        self.assertEqual(transitions(recorded(prologue=15)), [])
        self.assertEqual(len(transitions(recorded(prologue=8, began_in_transition=True))), 1)

    def test_the_timeline(self) -> None:
        rows = self.page('--timeline').splitlines()
        reader, worker, idle = (next(row for row in rows if row.startswith(name)) for name in ('        reader', '        worker', '          idle'))
        self.assertEqual([reader.count('x'), worker.count('x'), idle.count('x')], [2, 1, 1])
        self.assertEqual([row.count('O') for row in (reader, worker, idle)], [1, 1, 1])
        self.assertEqual(worker.index('x'), reader.index('x'))
        self.assertEqual(worker.index('O'), reader.rindex('x'))     # at the second walk, which refused the reader
        self.assertLess(idle.index('O'), worker.index('O'))

    def test_names(self) -> None:
        case = recorded()
        assert case.names is not None
        naming = RecordedNaming(case, case.names)
        self.assertEqual([naming.who(task) for task in (2, 3, 4, 65535, 77)], [
            'reader (pid 70000)', 'worker (pid 33, kernel thread)', 'thread (pid 44, thread of 40, the recorder itself)',
            'the idle task of CPU 0', '? (pid 77)'])

    def test_stacks_that_are_too_old(self) -> None:
        """A look into /proc tells of a task until the task does something; of a function it is in, from its call on."""
        rows = [[0, ['pipe_read', 'vfs_read'], 'S'], [9, ['do_wait'], '?']]
        case = recorded(stacks={'2': rows, '3': rows})
        assert case.names is not None
        naming = RecordedNaming(case, case.names)
        self.assertEqual(naming.stack(2, 8, None), (['pipe_read', 'vfs_read'], 'S'))
        self.assertEqual(naming.stack(2, 13, 2), (['do_wait'], ''))             # task 2 has run since: its state isn't known any more
        self.assertEqual(naming.stack(2, 13, None), ([], ''))
        self.assertEqual(naming.stack(3, 9, None), (['do_wait'], 'S'))
        self.assertEqual(naming.stack(3, 10, 10), ([], ''))                     # called after the last look
        self.assertEqual(naming.stack(4, 5, None), ([], ''))


if __name__ == '__main__':
    unittest.main()
