"""A task's check of itself at cond_resched, the word `resched` of `lptrace 3`: pages, verify, thinning and pictures.

The expected decisions are worked by hand: at `resched` the task's own stack is looked at as it stands, a running task isn't
busy to itself, and the check is of its group where it is the only live member.
"""
import os
import tempfile
import unittest
from typing import List, Tuple

from explain_support import page_lines
from support import data, needs_lpt, text_of
from test_foundation import outcome

from lpt_live import report, rules, trace
from lpt_live.explain.case import Case
from lpt_live.explain.causes import cause_in_words
from lpt_live.picture import Story
from lpt_live.thin import thin

# Task 1 is in a, and checks itself at 5, 8 and, back from a, at 10; task 2 has nothing on its stack at 6.
TRACE = '''lptrace 3
sym a
patch 1 a
boot 1 normal
boot 2 normal
enter 1
call 1 a
enter 2
enable
resched 1
resched 2
walk
resched 1
ret 1
resched 1
walk
'''
EXPECT = '''lpexpect 1
kernel 6.12.0 #1 SMP x86_64
task 1 kthread worker
task 2 user reader
leg 4 enable 1 from 3 complete 11 shown 11
ran 2 1 0
stays 5 1 frame
over 6 2 resched
stays 7 1 busy
stays 8 1 frame
over 10 1 resched
'''
# Task 1 and its thread 2 are one group until 2 ends: `resched` 6 is no check of it under process-group, 8 is one.
THREADS = '''lptrace 3
sym a
patch 1 a
boot 1 normal
enter 1
fork 1 2 share
enable
resched 1
die 2
resched 1
'''


@needs_lpt
class Verified(unittest.TestCase):
    """A kernel's decisions, as they should be and otherwise."""

    def verify(self, expect: str) -> Tuple[int, List[str]]:
        """Status and lines of `verify` on the trace with these decisions."""
        with tempfile.TemporaryDirectory() as folder:
            base = os.path.join(folder, 'x')
            for end, text in (('.lptrace', TRACE), ('.expect', expect)):
                with open(base + end, 'w', encoding='utf-8') as file:
                    file.write(text)
            status, output, error = outcome(['verify', base + '.lptrace'])
            self.assertEqual(error, '')
            return status, output.splitlines()

    def test_unchanged(self) -> None:
        self.assertEqual(self.verify(EXPECT), (0, ['same: 2 switches, 3 refusals, 1 version, in 1 transition']))

    def test_moved_with_a_stale_frame(self) -> None:
        wrong = EXPECT.replace('over 10 1 resched\n', '').replace('stays 7 1 busy\nstays 8 1 frame\n', '')
        status, output = self.verify(wrong.replace('stays 5 1 frame', 'over 5 1 resched'))
        self.assertEqual((status, output[:-1]), (1, [
            'too early: task 1 (worker) was switched at event 5 (line 10: resched 1) though it had a stale frame: a, the old version, '
            'called by event 2 (line 7: call 1 a); the engine switches it at event 10 (line 15: resched 1)']))

    def test_refused_without_a_reason(self) -> None:
        status, output = self.verify(EXPECT.replace('over 6 2 resched', 'stays 6 2 frame').replace('over 10', 'over 11 2 walk\nover 10'))
        self.assertEqual((status, output[0]), (
            1, 'too late: task 2 (reader) could be switched at event 6 (line 11: resched 2); the kernel did at event 11 (line 16: walk); '
            'it refused it meanwhile (frame), first at event 6 (line 11: resched 2)'))

    def test_refused_at_the_check_of_another(self) -> None:
        status, output = self.verify(EXPECT.replace('stays 5 1 frame', 'stays 6 1 frame'))
        self.assertEqual((status, output[:-1]), (1, [
            'differs: task 1 (worker) was refused (frame) at event 6 (line 11: resched 2), and the engine doesn\'t let it wait there']))

    def test_the_recording_of_a_kernel_thread(self) -> None:
        """It was refused thousands of times while it was in box_a, and went over at the first such check after that."""
        status, output, error = outcome(['verify', data('recordings', 'kernel-thread-6.12.lptrace')])
        self.assertEqual((status, error), (0, ''))
        self.assertTrue(output.startswith('same: '), output)
        decisions = text_of('recordings', 'kernel-thread-6.12.expect').splitlines()
        self.assertEqual(sum(line.startswith('over ') and line.endswith(' resched') for line in decisions), 5)
        self.assertGreater(sum(line.startswith('stays ') for line in decisions), 6500)


@needs_lpt
class Pages(unittest.TestCase):
    def test_who_waits(self) -> None:
        told = '\n'.join(page_lines(Case(TRACE, 'hybrid', None, 'T'), '--at', '8'))
        self.assertIn('task 1 is in a (line 7), refused at events 5 to 8 (3 checks, lines 10 to 13)\n', told)
        self.assertIn('goes over once a has returned: as it leaves the kernel, or at a walk, or at its own check at cond_resched\n', told)
        self.assertIn('WENT OVER at line 15 (event 10), at its own check, cond_resched, 6 events after the opening (3 checks refused it)', told)

    def test_own_checks_are_counted_apart_from_walks(self) -> None:
        told = '\n'.join(page_lines(Case(TRACE.replace('resched 2\nwalk\n', 'resched 2\nstop\n'), 'hybrid', None, 'T'), '--at', '8'))
        self.assertIn('refused at events 5 to 8 (2 own checks, lines 10 to 13)\n', told)

    def test_each_model(self) -> None:
        told = page_lines(Case(TRACE, 'hybrid', None, 'T'))
        found = [line for line in told if line.startswith(('  hybrid', '  leave', '  all', '  immediate', '  process'))]
        self.assertEqual([line.split('  ')[-1].split(',')[0].strip() for line in found], [
            'complete at line 15 (event 10)', 'not complete', 'not complete: there was no stop', 'complete at line 11 (event 6)',
            'complete at line 15 (event 10)'])

    def test_a_group_is_looked_at_where_the_task_is_alone(self) -> None:
        case = Case(THREADS, 'process-group', None, 'T')
        self.assertEqual(case.looks(1, 3, 6), [6])
        self.assertEqual(case.report.switched(), {6: (1,)})
        self.assertEqual(rules.own_checks(trace.parse(THREADS), 'hybrid', ()), {1: [4, 6]})
        self.assertEqual(rules.own_checks(trace.parse(THREADS), 'leave-kernel', ()), {})

    def test_the_timeline_has_each_refusal(self) -> None:
        told = page_lines(Case(TRACE, 'hybrid', None, 'T'), '--timeline')
        row = next(line for line in told if line.strip().startswith('task 1 #'))
        self.assertEqual(row.count('x'), 3)
        self.assertIn('   x refused   O over', told[-1])

    def test_a_word_of_this_text_alone(self) -> None:
        self.assertIn('a word of `lptrace 3` alone', cause_in_words('lpt: line 5: L3', 'lptrace 1\nsym a\npatch a\nboot 1 normal\nresched 1\n'))


@needs_lpt
class Followed(unittest.TestCase):
    def test_the_picture_marks_each_check(self) -> None:
        story = Story(trace.parse(TRACE), report.run('hybrid', TRACE))
        self.assertEqual([(mark.event, mark.task, mark.kind) for mark in story.marks],
                         [(5, 1, 'frame'), (6, 2, 'switch'), (7, 1, 'frame'), (8, 1, 'frame'), (10, 1, 'switch')])

    def test_each_model_s_report_can_be_followed(self) -> None:
        for text in (TRACE, THREADS):
            for model in rules.MODELS:
                with self.subTest(model=model):
                    Story(trace.parse(text), report.run(model, text))

    def test_thinning_keeps_each(self) -> None:
        """Of the moves between them only those remain that bring the task there."""
        text = TRACE.replace('resched 1\nret', 'resched 1\nsleep 1\nwake 1\nsleep 1\nwake 1\nret').replace('resched 2\n', 'exit 2\nenter 2\nresched 2\n')
        thinned, kept = thin(text)
        self.assertEqual(thinned.count('resched'), 4)
        self.assertNotIn('sleep', thinned)
        self.assertEqual({kept[event - 1]: groups for event, groups in report.run('hybrid', thinned).switched().items()},
                         report.run('hybrid', text).switched())


if __name__ == '__main__':
    unittest.main()
