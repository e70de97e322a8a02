"""`verify` on decisions that were changed in each way."""
import json
import os
import shutil
import tempfile
import unittest
from typing import Callable, List, Tuple

from support import data, needs_lpt, text_of
from test_foundation import outcome

# Task 1 sleeps in a until it leaves the kernel at 13; tasks 2 and 3 go over at the walk; the walk at 14 completes.
TRACE = '''lptrace 1
sym a
sym b
patch a
boot 1 normal
boot 2 normal
boot 3 normal
enter 1
call 1 a
sleep 1
enter 2
sleep 2
enter 3
sleep 3
enable
walk
wake 1
fork 1 4 own
ret 1
exit 1
exit 4
walk
enter 1
call 1 a
enable
'''
EXPECT = '''lpexpect 1
kernel 6.1.0 #1 SMP x86_64
task 1 user reader
task 2 user writer
task 3 kthread kworker/0:1
task 4 user child
leg 8 enable new from 7 complete 15 shown 15
ran 2 1 old
shown 6 7 2 -1
over 9 2 walk kernel
over 9 3 walk
stays 9 1 frame
shown 10 10 1 0
shown 10 10 2 1
born 11 4 waiting
over 13 1 exit
over 14 4 exit
shown 14 14 4 1
ran 17 1 new
refused 18 0 enable_-22
'''


@needs_lpt
class Changed(unittest.TestCase):
    def verify(self, trace: str, expect: str, *words: str) -> Tuple[int, List[str], str]:
        """Status, lines and the error of `verify` on a trace with these decisions."""
        with tempfile.TemporaryDirectory() as folder:
            base = os.path.join(folder, 'x')
            for end, text in (('.lptrace', trace), ('.expect', expect)):
                with open(base + end, 'w', encoding='utf-8') as file:
                    file.write(text)
            status, output, error = outcome(['verify', base + '.lptrace', *words])
            return status, output.splitlines(), error

    def differs(self, change: Callable[[str], str], *lines: str) -> None:
        """The decisions, changed so, must differ in these lines."""
        self.assertNotEqual(change(EXPECT), EXPECT)
        status, output, error = self.verify(TRACE, change(EXPECT))
        self.assertEqual(status, 1, error)
        self.assertEqual(output[:-1], list(lines))
        self.assertRegex(output[-1], r'^differs: \d+ decisions?, of ')

    def replaced(self, old: str, new: str) -> Callable[[str], str]:
        """A change of one line, or its removal."""
        return lambda text: text.replace(old + '\n', new + '\n' if new else '', 1)

    def test_unchanged(self) -> None:
        status, output, error = self.verify(TRACE, EXPECT)
        self.assertEqual((status, error), (0, ''))
        self.assertEqual(output, ['same: 4 switches, 1 refusal, 2 versions, 4 samples, 1 birth, 1 refused control, in 1 transition'])

    def test_what_was_before_the_recording_is_no_decision(self) -> None:
        told = EXPECT.replace('over 9 2 walk kernel', 'over 9 2 told').replace('over 9 3 walk', 'over 9 3 told')
        status, output, _ = self.verify(TRACE, told)
        self.assertEqual((status, output), (0, ['same: 2 switches, 1 refusal, 2 versions, 4 samples, 1 birth, 1 refused control, '
                                                'in 1 transition (2 switches from before the recording, by /proc)']))

    def test_too_early_with_the_stale_frame(self) -> None:
        self.differs(lambda text: text.replace('over 13 1 exit\n', '').replace('stays 9 1 frame', 'over 9 1 walk kernel'),
                     'too early: task 1 (reader) was switched at event 9 (line 16: walk) though it had a stale frame: a, the old version, '
                     'called by event 2 (line 9: call 1 a); the engine switches it at event 13 (line 20: exit 1)')

    def test_too_early_though_busy(self) -> None:
        self.differs(lambda text: text.replace('over 14 4 exit\n', 'over 12 4 walk\n'),
                     'too early: task 4 (child) was switched at event 12 (line 19: ret 1) though this event is no check of it; '
                     'the engine switches it at event 14 (line 21: exit 4)')

    def test_too_early_on_a_cpu_at_a_walk(self) -> None:
        trace = TRACE.replace('enter 3\nsleep 3\nenable\nwalk\n', 'enter 3\nenable\nwalk\nsleep 3\n')
        expect = EXPECT.replace('leg 8 enable new from 7', 'leg 7 enable new from 6').replace(' 9 2 walk', ' 8 2 walk') \
            .replace(' 9 3 walk', ' 8 3 walk').replace('stays 9', 'stays 8').replace('shown 6 7', 'shown 5 6') \
            .replace('refused 18 0 enable_-22\n', '').replace('complete 15 shown 15', '')
        status, output, _ = self.verify(trace, expect)
        self.assertEqual(status, 1)
        self.assertEqual(output[0], 'too early: task 3 (kworker/0:1) was switched at event 8 (line 15: walk) though it was on a CPU '
                         'in the kernel; the engine switches it at event 15 (line 22: walk)')

    def test_too_late(self) -> None:
        self.differs(self.replaced('over 9 2 walk kernel', 'stays 9 2 busy\nover 15 2 walk kernel'),
                     'too late: task 2 (writer) could be switched at event 9 (line 16: walk); the kernel did at event 15 (line 22: walk); '
                     'it refused it meanwhile (busy), first at event 9 (line 16: walk)')

    def test_never(self) -> None:
        self.differs(self.replaced('over 13 1 exit', ''),
                     'too late: task 1 (reader) could be switched at event 13 (line 20: exit 1); the kernel didn\'t in this transition')

    def test_switched_in_vain(self) -> None:
        self.differs(self.replaced('over 14 4 exit', 'over 14 4 exit\nover 15 4 walk'),
                     'too early: task 4 (child) was switched at event 15 (line 22: walk) though the engine had switched it at event 14 '
                     '(line 21: exit 4); the engine doesn\'t switch it in this transition')

    def test_refused_though_over(self) -> None:
        self.differs(self.replaced('over 14 4 exit', 'over 14 4 exit\nstays 15 4 unreliable'),
                     'differs: task 4 (child) was refused (unreliable) at event 15 (line 22: walk), and the engine doesn\'t let it wait there')

    def test_another_version(self) -> None:
        self.differs(self.replaced('ran 17 1 new', 'ran 17 1 old'),
                     'another version ran: task 1 (reader) ran the old version of a at event 17 (line 24: call 1 a); '
                     'the engine\'s is the new version')
        self.differs(self.replaced('ran 2 1 old', 'ran 2 1 new'),
                     'another version ran: task 1 (reader) ran the new version of a at event 2 (line 9: call 1 a); '
                     'the engine\'s is the old version')

    def test_a_version_of_a_call_that_the_engine_refuses(self) -> None:
        status, output, _ = self.verify(TRACE.replace('enter 1\ncall 1 a\nenable\n', 'walk\ncall 1 a\nenable\n'), EXPECT)
        self.assertEqual((status, output[:-1]), (1, [
            'another version ran: task 1 (reader) ran the new version of a at event 17 (line 24: call 1 a); '
            'the engine\'s is none: it refuses the event',
            'differs: the engine refuses event 17 (line 24: call 1 a) (E6); of the kernel no refusal is told']))

    def test_how_many_decisions_differ(self) -> None:
        for change, number in (
                (('over 13 1 exit', 'over 14 1 walk'), '2 decisions'), (('over 13 1 exit', ''), '1 decision'),
                (('over 9 2 walk kernel', 'stays 9 2 busy\nover 15 2 walk'), '3 decisions'), (('ran 2 1 old', 'ran 2 1 new'), '1 decision')):
            self.assertRegex(self.verify(TRACE, self.replaced(*change)(EXPECT))[1][-1], f'^differs: {number}, of ')

    def test_samples_of_the_dead_fit_all(self) -> None:
        trace = TRACE.replace('exit 4\n', 'die 4\n')
        for state in ('0', '1', '-1', 'none'):
            expect = EXPECT.replace('over 14 4 exit\nshown 14 14 4 1\n', f'shown 14 14 4 {state}\n')
            self.assertEqual(self.verify(trace, expect)[0], 0)

    def test_samples_of_a_preparation_from_the_beginning_on(self) -> None:
        expect = EXPECT.replace('from 7', 'from 0').replace('shown 6 7 2 -1', 'shown 3 3 2 0')
        self.assertEqual(self.verify(TRACE, expect)[0], 0)
        self.assertEqual(self.verify(TRACE, expect.replace('shown 3 3 2 0', 'shown 3 3 2 -1'))[0], 1)

    def test_another_sample(self) -> None:
        self.differs(self.replaced('shown 10 10 1 0', 'shown 10 10 1 1'),
                     'another sample: task 1 (reader): patch_state showed 1 between event 10 (line 17: wake 1) and event 10 '
                     '(line 17: wake 1); by the engine it was 0')
        self.differs(self.replaced('shown 10 10 2 1', 'shown 10 10 2 -1'),
                     'another sample: task 2 (writer): patch_state showed -1 between event 10 (line 17: wake 1) and event 10 '
                     '(line 17: wake 1); by the engine it was 1')

    def test_a_sample_of_a_task_that_isnt_born(self) -> None:
        self.differs(self.replaced('shown 10 10 2 1', 'shown 10 10 4 1'),
                     'another sample: task 4 (child): patch_state showed 1 between event 10 (line 17: wake 1) and event 10 '
                     '(line 17: wake 1); by the engine it was not born')
        self.assertEqual(self.verify(TRACE, EXPECT.replace('shown 10 10 2 1', 'shown 10 10 4 none'))[0], 0)
        self.assertEqual(self.verify(TRACE, EXPECT.replace('shown 10 10 2 1', 'shown 10 10 2 none'))[0], 1)

    def test_a_sample_on_the_edge_of_a_moment_fits_either_side(self) -> None:
        for state in ('0', '-1'):           # the preparation lies between 7 and 8, and so may the sample
            self.assertEqual(self.verify(TRACE, EXPECT.replace('shown 6 7 2 -1', f'shown 7 7 2 {state}'))[0], 0)
        for state in ('1', '-1'):           # so does the end of the completion
            self.assertEqual(self.verify(TRACE, EXPECT.replace('shown 14 14 4 1', f'shown 15 15 4 {state}'))[0], 0)

    def test_a_sample_within_the_completing_walk_fits_all_that_it_passes(self) -> None:
        trace = TRACE.replace('exit 4\n', 'sleep 4\n')         # so the walk at 15 switches 4, and completes
        for state, status in (('0', 0), ('1', 0), ('-1', 0), ('none', 1)):
            expect = EXPECT.replace('over 14 4 exit\nshown 14 14 4 1\n', f'over 15 4 walk\nshown 14 15 4 {state}\n')
            self.assertEqual(self.verify(trace, expect)[0], status, state)

    def test_the_next_preparation_may_begin_where_a_completion_ends(self) -> None:
        trace = TRACE.replace('call 1 a\nenable\n', 'disable\n')
        expect = EXPECT.replace('shown 15\n', 'shown 15\nleg 17 disable old from 15\n') \
            .replace('ran 17 1 new\nrefused 18 0 enable_-22\n', 'shown 16 16 1 1\n')
        self.assertEqual(self.verify(trace, expect)[0], 0)
        self.assertEqual(self.verify(trace, expect.replace('shown 16 16 1 1', 'shown 16 16 1 -1'))[0], 1)

    def test_completed_too_early(self) -> None:
        self.differs(self.replaced('leg 8 enable new from 7 complete 15 shown 15', 'leg 8 enable new from 7 complete 9 shown 9'),
                     'completed too early: the transition of event 8 (line 15: enable) was completed at event 9 (line 16: walk); '
                     'for the engine it is complete at event 14 (line 21: exit 4)',
                     'another sample: task 1 (reader): patch_state showed 0 between event 10 (line 17: wake 1) and event 10 '
                     '(line 17: wake 1); by the engine it was -1',
                     'another sample: task 2 (writer): patch_state showed 1 between event 10 (line 17: wake 1) and event 10 '
                     '(line 17: wake 1); by the engine it was -1',
                     'another sample: task 4 (child): patch_state showed 1 between event 14 (line 21: exit 4) and event 14 '
                     '(line 21: exit 4); by the engine it was -1')

    def test_completed_though_tasks_wait(self) -> None:
        trace = TRACE.replace('exit 4\nwalk\n', 'sleep 2\nwalk\n')          # refused, and 4 stays in the kernel
        expect = EXPECT.replace('over 14 4 exit\nshown 14 14 4 1\n', '')
        status, output, _ = self.verify(trace, expect)
        self.assertEqual(status, 1)
        self.assertIn('completed too early: the transition of event 8 (line 15: enable) was completed at event 15 (line 22: walk); '
                      'for the engine it is not complete, 1 task waiting', output)

    def test_completed_at_the_same_event(self) -> None:
        self.assertEqual(self.verify(TRACE, EXPECT.replace('complete 15 shown 15', 'complete 14 shown 15'))[0], 0)
        self.assertEqual(self.verify(TRACE, EXPECT.replace('complete 15 shown 15', 'complete 13 shown 15'))[0], 1)

    def test_a_transition_that_the_kernel_doesnt_have(self) -> None:
        status, output, _ = self.verify(TRACE, EXPECT.replace('leg 8 enable new from 7 complete 15 shown 15\n', ''))
        self.assertEqual(status, 1)
        self.assertIn('differs: the transition of event 8 (line 15: enable): none for the kernel, to new for the engine', output)

    def test_a_transition_that_the_engine_doesnt_have(self) -> None:
        self.differs(self.replaced('leg 8 enable new from 7 complete 15 shown 15',
                                   'leg 8 enable new from 7 complete 15 shown 15\nleg 18 enable new'),
                     'differs: the transition of event 18 (line 25: enable): to new for the kernel, none for the engine')

    def test_switched_outside_of_a_transition(self) -> None:
        self.differs(self.replaced('over 9 2 walk kernel', 'over 5 2 walk\nover 9 2 walk kernel'),
                     'too early: task 2 (writer) was switched at event 5 (line 12: sleep 2) though it has nowhere to go: '
                     'no transition waits for it; the engine doesn\'t switch it in this transition')

    def test_refused_where_nothing_looks(self) -> None:
        self.differs(self.replaced('stays 9 1 frame', 'stays 9 1 frame\nstays 12 1 frame'),
                     'differs: task 1 (reader) was refused (frame) at event 12 (line 19: ret 1), and the engine doesn\'t let it wait there')

    def test_many_differences_are_cut_short_but_in_json(self) -> None:
        expect = EXPECT.replace('shown 10 10 1 0\n', 'shown 10 10 1 1\n' * 45)
        status, output, _ = self.verify(TRACE, expect)
        self.assertEqual((status, len(output), output[-2]), (1, 42, '.. and 5 more (--json has them all)'))
        self.assertEqual(len(json.loads(self.verify(TRACE, expect, '--json')[1][0])['differences']), 45)
        self.assertNotIn('more', '\n'.join(self.verify(TRACE, expect.replace('shown 10 10 1 1\n', '', 5))[1]))

    def test_never_completed(self) -> None:
        self.differs(self.replaced('leg 8 enable new from 7 complete 15 shown 15', 'leg 8 enable new from 7'),
                     'too late: the transition of event 8 (line 15: enable) is complete at event 14 (line 21: exit 4); '
                     'the kernel\'s walks since haven\'t completed it')

    def test_a_completion_that_no_walk_could_notice_is_none_yet(self) -> None:
        trace = TRACE.replace('exit 4\nwalk\nenter 1\ncall 1 a\nenable\n', 'exit 4\n')
        expect = EXPECT.replace(' complete 15 shown 15', '').replace('ran 17 1 new\nrefused 18 0 enable_-22\n', '')
        self.assertEqual(self.verify(trace, expect)[0], 0)

    def test_a_late_reversal_is_allowed(self) -> None:
        trace = TRACE.replace('exit 4\nwalk\nenter 1\ncall 1 a\nenable\n', 'exit 4\ndisable\n')
        expect = EXPECT.replace(' complete 15 shown 15', '\nleg 15 disable old').replace('ran 17 1 new\nrefused 18 0 enable_-22\n',
                                                                                      'late 15 reverse\n')
        self.assertEqual(self.verify(trace, expect)[:2][0], 0)
        self.assertEqual(self.verify(trace, expect.replace('late 15 reverse\n', ''))[0], 0)
        walked = trace.replace('exit 4\ndisable', 'exit 4\nwalk\ndisable')
        later = expect.replace('leg 15 disable', 'leg 16 disable')
        self.assertEqual(self.verify(walked, later.replace('late 15', 'late 16'))[0], 0)
        self.assertEqual(self.verify(walked, later.replace('late 15 reverse\n', ''))[0], 1)

    def test_another_side(self) -> None:
        self.differs(self.replaced('leg 8 enable new from 7 complete 15 shown 15', 'leg 8 enable old from 7 complete 15 shown 15'),
                     'differs: the transition of event 8 (line 15: enable): to old for the kernel, to new for the engine',
                     'another sample: task 1 (reader): patch_state showed 0 between event 10 (line 17: wake 1) and event 10 '
                     '(line 17: wake 1); by the engine it was 1')

    def test_a_birth_on_the_other_side(self) -> None:
        self.differs(self.replaced('born 11 4 waiting', 'born 11 4 over'),
                     'differs: task 4 (child) was born over at event 11 (line 18: fork 1 4 own); the engine has it on the other side')

    def test_controls(self) -> None:
        self.differs(self.replaced('refused 18 0 enable_-22', ''),
                     'differs: the engine refuses event 18 (line 25: enable) (E12); of the kernel no refusal is told')
        self.differs(self.replaced('refused 18 0 enable_-22', 'refused 18 0 enable_-22\nrefused 8 0 enable_-16'),
                     'differs: the kernel refused the control at event 8 (line 15: enable); the engine takes it')

    def test_json(self) -> None:
        status, output, _ = self.verify(TRACE, EXPECT.replace('over 13 1 exit\n', '').replace('stays 9 1 frame', 'over 9 1 walk'), '--json')
        got = json.loads(output[0])
        self.assertEqual((status, len(output), got['agrees'], got['differing']), (1, 1, False, 2))
        self.assertEqual({key: got['differences'][0][key] for key in ('kind', 'event', 'line', 'task', 'engine', 'frame')},
                         {'kind': 'too early', 'event': 9, 'line': 16, 'task': 1, 'engine': 13,
                          'frame': {'function': 'a', 'version': 'the old version', 'event': 2, 'line': 9}})
        self.assertEqual(json.loads(self.verify(TRACE, EXPECT, '--json')[1][0])['differences'], [])


if __name__ == '__main__':
    unittest.main()
