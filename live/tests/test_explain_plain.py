"""`explain` of plain traces: who waits and why, in lines of the trace; refused events; moments, models and words."""
import os
import subprocess
import sys
import tempfile
import unittest
from typing import List

from explain_support import explain, page_lines
from random_traces import Generator
from support import PROGRAM, ROOT, data, needs_lpt, text_of

from lpt_live import lpt
from lpt_live.explain.case import Case, transitions
from lpt_live.explain.models import LegTrace
from lpt_live.rules import MODELS

STUCK = data('explain', 'stuck.lptrace')


def lines_of(text: str, model: str = 'hybrid', *words: str) -> List[str]:
    """The page of a trace."""
    return page_lines(Case(text, model, None, 'T'), *words)


@needs_lpt
class Stuck(unittest.TestCase):
    """A trace in which tasks wait for each of the reasons that there are."""

    def setUp(self) -> None:
        self.text = text_of('explain', 'stuck.lptrace')

    def test_the_page(self) -> None:
        """Byte for byte. Each line of it was held against the trace: 102 calls pipe_read at line 15, the walks are lines 18, 24, 27, .."""
        said = explain(STUCK, '--timeline', '--what-if', 'reverse')
        self.assertEqual((said.status, said.fault), (0, ''))
        self.assertEqual(said.output, text_of('explain', 'stuck.page'))

    def test_as_a_process(self) -> None:
        """The program at the top of the repository, with the trace on its standard input; and without an lpt that can be started."""
        words = [sys.executable, PROGRAM, 'explain', '-']
        done = subprocess.run(words, input=self.text, capture_output=True, text=True, check=False)
        self.assertEqual((done.returncode, done.stderr), (0, ''))
        self.assertEqual(done.stdout.splitlines()[1:], explain(STUCK).output.splitlines()[1:])
        done = subprocess.run(words, input=self.text, capture_output=True, text=True, check=False, env={**os.environ, 'LPT': '/nowhere/lpt'})
        self.assertEqual((done.returncode, done.stdout), (4, ''))
        self.assertIn('/nowhere/lpt', done.stderr)

    def test_one_command_to_the_sentence(self) -> None:
        self.assertIn('  task 102 is in pipe_read (line 15), refused at events 8 to 17 (3 walks, lines 18 to 27)\n', explain(STUCK).output)

    def test_standard_input_and_a_base(self) -> None:
        self.assertEqual(explain(STUCK).output, explain(STUCK[:-len('.lptrace')]).output)

    def test_another_moment(self) -> None:
        """After the first walk 101 has gone over; the numbers of events and lines are both understood."""
        by_event, by_line = explain(STUCK, '--at', '8'), explain(STUCK, '--at', 'line:18')
        self.assertEqual(by_event, explain(STUCK, '--at', '8'))
        self.assertIn('WHO WAITED at line 18 (event 8): 3 tasks of 4\n', by_event.output)
        self.assertIn('  task 103 was on a CPU at its last check, refused as busy at event 8 (line 18)\n', by_event.output)
        self.assertEqual([line for line in by_line.output.splitlines() if 'WHO' not in line],
                         [line for line in by_event.output.splitlines() if 'WHO' not in line])
        self.assertIn('    WENT OVER at line 25 (event 15), at its idle point, 8 events after the opening (2 walks refused it)\n', by_event.output)

    def test_many_that_wait(self) -> None:
        """Of more than forty some are only named, and of more than twelve those that no check has looked at."""
        boots = ''.join(f'boot {number} normal\n' for number in range(1, 61))
        begin = f'lptrace 1\nsym a\npatch a\n{boots}enter 50\ncall 50 a\nenable\n'
        told = lines_of(begin)
        self.assertIn('WHO WAITS: 60 tasks of 60', told)
        self.assertEqual(sum('no check has looked at it' in line for line in told), 12)
        self.assertIn('  and 48 at which no check has looked yet: task 12, task 13, task 14, task 15, task 16, task 17, task 18, task 19 ..', told)
        told = lines_of(begin + 'walk\nfork 50 61 own\n')
        self.assertEqual(sum('refused' in line for line in told), 40)
        self.assertIn('  task 50 is in a (line 65), refused at event 4 (line 67)', told[8:9])
        self.assertIn('  and 20 more: task 40, task 41, task 42, task 43, task 44, task 45, task 46, task 47 ..', told)
        self.assertIn('  and 1 at which no check has looked yet: task 61', told)

    def test_many_tasks_of_one_group(self) -> None:
        """Under all-at-once the one group is 0, and the timeline and the picture have its tasks; --model says which rules they are by."""
        boots = ''.join(f'boot {number} normal\n' for number in range(1, 51))
        text = f'lptrace 1\nsym a\npatch a\n{boots}enter 50\ncall 50 a\nenable\nstop\nret 50\nstop\n'
        told = lines_of(text, 'all-at-once', '--timeline')
        self.assertIn('  all 50 tasks: task 50 is in a (line 55), refused at event 4 (line 57)', told)
        self.assertTrue(any(line.startswith('                task 1 ') for line in told))
        with tempfile.TemporaryDirectory() as folder:
            paths = [os.path.join(folder, name) for name in ('T', 'F.svg')]
            with open(paths[0], 'w', encoding='utf-8') as file:
                file.write(text)
            self.assertEqual(explain(paths[0], '--model', 'all-at-once', '--svg', paths[1])._replace(output=''), (0, '', ''))
            with open(paths[1], encoding='utf-8') as file:
                self.assertIn('>task 40<', file.read())

    def test_moments_that_there_are_not(self) -> None:
        for word, status in (('6', 3), ('18', 3), ('0', 3), ('noon', 2), ('12:00:00', 2), ('line:2', 2), ('line:99', 2)):
            said = explain(STUCK, '--at', word)
            self.assertEqual((said.status, said.output), (status, ''), word)
            self.assertIn(f'--at {word}', said.fault)

    def test_each_model(self) -> None:
        """Who waits at the end is whom `lpt run` names."""
        for model in MODELS:
            case = Case(self.text, model, None, 'T')
            waiting = [one.group for one in case.report.legs[-1].certificates if one.claim == 'waiting']
            told = [line for line in lines_of(self.text, model) if line.startswith('  ') and not line.startswith('   ')
                    and ('refused' in line or 'no check' in line)]
            self.assertEqual(len([line for line in told if 'line' in line or 'waits' in line]), len(waiting), model)


@needs_lpt
class Refused(unittest.TestCase):
    """A trace with a mistake says so before all else."""

    def test_a_missing_enter(self) -> None:
        """`lpt run` ends with status 0 and blames nobody's frame; the page says what is wrong."""
        text = text_of('explain', 'stuck.lptrace').replace('enter 102\n', '')
        self.assertEqual(lpt.answer(['run', 'hybrid'], text).status, 0)
        lines = lines_of(text)
        self.assertEqual(lines[2:5], [
            'CAUTION: 4 of 16 events were refused and changed nothing (E6 4 times); what follows may not be what was meant.',
            '  The first is line 13 (event 3), `call 102 vfs_read`: E6. `call` needs a task in the kernel on a CPU, and task 102 is in user space.',
            '  Usually an `enter 102` before it is missing; docs/mistakes.md has more.'])

    def test_no_caution_where_none_is_due(self) -> None:
        with open(os.path.join(ROOT, 'examples', 'sleeper.lptrace'), encoding='utf-8') as file:
            self.assertNotIn('CAUTION', '\n'.join(lines_of(file.read())))

    def test_without_a_transition(self) -> None:
        """The refused event may be why there is none."""
        with tempfile.TemporaryDirectory() as folder:
            path = os.path.join(folder, 'T')
            with open(path, 'w', encoding='utf-8') as file:
                file.write('lptrace 1\nsym a\npatch a\nboot 1 normal\ndisable\n')
            said = explain(path)
            self.assertEqual(said.status, 0)
            self.assertIn('T: 1 event, no transition in it.\nCAUTION: 1 of 1 event was refused', said.output)
            self.assertEqual(explain(path, '--leg', '1').status, 3)
            self.assertEqual(explain(path, '--certificate', '1').status, 3)

    def test_bad_files(self) -> None:
        with tempfile.TemporaryDirectory() as folder:
            for name, content, says in (('none', None, 'No such file'), ('empty', b'', 'line 1: L1'), ('bytes', b'\xff\xfe', 'L2'),
                                        ('report', b'lpreport 1\nmodel hybrid\n', 'this is a report'),
                                        ('gzip', b'\x1f\x8bxx', 'the recording is cut')):
                path = os.path.join(folder, name)
                if content is not None:
                    with open(path, 'wb') as file:
                        file.write(content)
                said = explain(path)
                self.assertEqual((said.status, said.output), (3, ''), name)
                self.assertIn(says, said.fault)
                self.assertEqual(said.fault.count('\n'), 1)

    def test_words(self) -> None:
        wrong: List[List[str]] = [[], [STUCK, '--what-if', 'walk'], [STUCK, '--model', 'mine'], [STUCK, STUCK], [STUCK, '--leg', 'x']]
        for words in wrong:
            self.assertEqual(explain(*words).status, 2, words)
        for leg in ('0', '2', '-1'):
            self.assertEqual(explain(STUCK, '--leg', leg).status, 3)
        said = explain('--help')
        self.assertEqual(said.status, 0)
        self.assertIn('--certificate PID', said.output)


@needs_lpt
class Examples(unittest.TestCase):
    """The examples of the repository, whose outcomes examples/README.md tells."""

    def page(self, name: str, *words: str) -> str:
        """The page of an example."""
        said = explain(os.path.join(ROOT, 'examples', f'{name}.lptrace'), *words)
        self.assertEqual((said.status, said.fault), (0, ''))
        return said.output

    def test_a_child_born_waiting(self) -> None:
        self.assertIn('    born at line 10 (event 4) of task 1, which was waiting itself\n', self.page('fork'))
        self.assertIn('  task 2 is in a (line 12), refused at event 8 (line 14)\n', self.page('fork'))

    def test_a_frame_that_no_check_has_seen_yet(self) -> None:
        """The next walk would find it, so the page names it."""
        self.assertIn('  task 1 is in a (line 8), no check has looked at it since the opening\n', self.page('leaving'))
        self.assertIn('    WENT OVER at line 11 (event 5), as it left the kernel, 2 events after the opening\n', self.page('leaving'))

    def test_a_transition_turned_round(self) -> None:
        self.assertIn('TRANSITION 2 of 2: turned round, to the original functions; opened at line 14 (event 7)\n', self.page('reversal'))
        self.assertIn('TURNED ROUND at line 14 (event 7), 6 events after its opening.\n', self.page('reversal', '--leg', '1'))
        self.assertIn('not told for a transition that was turned round', self.page('reversal'))

    def test_stacked_patches(self) -> None:
        self.assertIn('Trace stacked.lptrace: patch 2 of 2 replaces b\n', self.page('stacked', '--leg', '2'))
        self.assertIn('TRANSITION 4 of 4: unpatching, to level 0 (nothing patched); opened at line 17 (event 11)\n', self.page('stacked'))

    def test_a_task_that_never_leaves_its_cpu(self) -> None:
        told = self.page('resched')
        self.assertIn('  task 1 is in a (line 7), refused at event 4 (line 9)\n', told)
        self.assertIn('    WENT OVER at line 14 (event 9), at its own check, cond_resched, 6 events after the opening (3 checks refused it)\n', told)
        self.assertIn('STILL OPEN at the end of the trace', self.page('resched', '--model', 'leave-kernel'))

    def test_one_task_holds_up_all(self) -> None:
        told = self.page('stop', '--model', 'all-at-once', '--at', '4')
        self.assertIn('  all 2 tasks: task 2 is in a (line 9), refused at event 4 (line 11)\n', told)
        self.assertIn('    WENT OVER at line 13 (event 6), at a stop, 3 events after the opening (1 stop refused it)\n', told)

    def test_what_if(self) -> None:
        self.assertIn('WHAT IF it were turned round at line 11 (event 5): complete at once\n', self.page('sleeper', '--what-if', 'reverse'))
        self.assertIn('WHAT IF it were turned round at line 14 (event 8): that is refused, there is no transition under way any more\n',
                      self.page('sleeper', '--what-if', 'reverse', '--at', '8'))
        self.assertIn('after one walk 1 task would hold up the way back: task 1 in a\n',
                      self.page('reversal', '--leg', '1', '--what-if', 'reverse'))

    def test_the_models_of_a_later_transition(self) -> None:
        """A refused control is left out of them: here `reverse` would turn the transition round under leave-kernel alone."""
        lines = lines_of('lptrace 1\nsym a\npatch a\nboot 1 normal\nenable\nenter 1\nexit 1\nenter 1\nsleep 1\ndisable\nwalk\nreverse\n'
                         'wake 1\nexit 1\n')
        self.assertIn('  hybrid (Linux)             complete at line 11 (event 7), 1 event after the opening', lines)
        self.assertIn('  leave-kernel (kGraft)      complete at line 14 (event 10), 4 events after the opening', lines)

    def test_a_transition_by_itself_ends_as_in_the_whole_trace(self) -> None:
        """Cut out for `lpt compare`, each `enable` and `disable` of random traces completes under hybrid at its own event, or as many wait."""
        told = 0
        for seed in range(30):
            case = Case(Generator(seed).make(120), 'hybrid', None, 'T')
            for transition in transitions(case):
                if case.events[transition.opened - 1].word != 'reverse':
                    own = LegTrace(case, transition, {})
                    _, word, count, *_ = lpt.ask(['compare'], own.text).splitlines()[2].split()
                    complete = own.numbers[int(count) - 1] if word == 'complete' else None
                    self.assertEqual((complete, 0 if complete else int(count)), (transition.leg.complete, transition.leg.waiting), seed)
                    told += 1
        self.assertGreater(told, 50)

    def test_the_models_are_those_of_compare(self) -> None:
        self.assertIn('  immediate (no condition)   complete at line 11 (event 5), 1 event after the opening\n', self.page('sleeper'))
        self.assertIn('  all-at-once (Ksplice)      not complete: there was no stop\n', self.page('sleeper'))


if __name__ == '__main__':
    unittest.main()
