"""The words of the program, the finder of lpt, and each text that the others read."""
import contextlib
import gzip
import io
import os
import subprocess
import sys
import tempfile
import types
import unittest
from typing import List, Tuple
from unittest import mock

from support import PROGRAM, data, needs_lpt

from lpt_live import cli, errors, expectation, files, lpt, names, recording, report, tasks, trace

LEAVING = '''lptrace 1
sym a
sym b
patch a
boot 1 normal
boot 2 idle
enter 1
call 1 a
enable
ret 1
fork 1 3 share
exit 1
idle 2
exit 3
'''


def outcome(words: List[str]) -> Tuple[int, str, str]:
    """Status and both streams of the program's words, in this process."""
    out, err = io.StringIO(), io.StringIO()
    with contextlib.redirect_stdout(out), contextlib.redirect_stderr(err):
        status = cli.main(words)
    return status, out.getvalue(), err.getvalue()


class Words(unittest.TestCase):
    def test_without_a_word_is_usage(self) -> None:
        status, out, err = outcome([])
        self.assertEqual((status, out), (2, ''))
        for word in cli.WORDS:
            self.assertIn(f'  {word} ', err)

    def test_help_of_all(self) -> None:
        status, out, err = outcome(['--help'])
        self.assertEqual((status, err), (0, ''))
        self.assertIn('verify', out)

    def test_another_word_is_usage(self) -> None:
        self.assertEqual(outcome(['decide'])[0], 2)

    def test_a_word_whose_module_is_missing_ends_with_its_reason(self) -> None:
        with mock.patch.dict(cli.WORDS, {'later': cli.Word('later', 'not here')}):
            status, _, err = outcome(['later'])
        self.assertEqual((status, err), (5, 'lpt-live later: this copy of the program is without the word later\n'))

    def test_a_fault_within_a_words_module_is_no_missing_word(self) -> None:
        with mock.patch.object(cli.importlib, 'import_module', side_effect=ModuleNotFoundError(name='socket')):
            with self.assertRaises(ModuleNotFoundError):
                cli.load('now')

    def test_statuses_of_a_words_end(self) -> None:
        for end, status in ((errors.Refused('cut'), 3), (errors.Usage('x'), 2), (errors.NoEngine('x'), 4),
                            (errors.NotPossible('x'), 5)):
            module = types.SimpleNamespace(__doc__='x', add_arguments=lambda parser: None,
                                           run=mock.Mock(side_effect=end))
            with mock.patch.object(cli, 'load', return_value=module):
                self.assertEqual(outcome(['now'])[::2], (status, f'lpt-live now: {end}\n'))

    def test_a_fault_of_the_program_is_no_status_of_verify(self) -> None:
        for fault in (KeyError('x'), OSError(28, 'No space left on device'), BrokenPipeError()):
            module = types.SimpleNamespace(__doc__='x', add_arguments=lambda parser: None, run=mock.Mock(side_effect=fault))
            with mock.patch.object(cli, 'load', return_value=module), mock.patch.object(cli.os, 'dup2'):
                self.assertEqual(outcome(['verify'])[0], 6)

    @needs_lpt
    def test_full_and_closed_outputs(self) -> None:
        words = [sys.executable, PROGRAM, 'verify', data('differ-thunk.lptrace')]
        with open('/dev/full', 'w', encoding='utf-8') as full:
            done = subprocess.run(words, stdout=full, stderr=subprocess.PIPE, check=False)
        self.assertEqual((done.returncode, done.stderr.count(b'\n')), (6, 1))
        self.assertIn(b'No space left', done.stderr)
        done = subprocess.run(['sh', '-c', '"$@" >&-', 'sh', *words], stderr=subprocess.PIPE, check=False)
        self.assertEqual((done.returncode, done.stderr), (6, b'lpt-live verify: standard output is closed\n'))
        with subprocess.Popen(words, stdout=subprocess.PIPE, stderr=subprocess.PIPE) as process:
            assert process.stdout and process.stderr
            process.stdout.close()
            self.assertEqual((process.stderr.read(), process.wait()), (b'', 6))

    def test_as_a_process(self) -> None:
        done = subprocess.run([sys.executable, PROGRAM, '--help'], stdout=subprocess.PIPE, check=False)
        self.assertEqual(done.returncode, 0)
        self.assertTrue(done.stdout.startswith(b'usage: lpt-live WORD'))


class Engine(unittest.TestCase):
    def test_the_variable_comes_first(self) -> None:
        with mock.patch.dict(os.environ, {'LPT': 'nice -n 5 /x/lpt'}):
            self.assertEqual(lpt.find(), ['nice', '-n', '5', '/x/lpt'])

    def test_then_the_built_program_then_the_checkouts(self) -> None:
        with tempfile.TemporaryDirectory() as top, mock.patch.dict(os.environ, {'LPT': '', 'PATH': top}), \
                mock.patch.object(lpt, 'checkout', return_value=top):
            self.assertIsNone(lpt.find())
            with self.assertRaises(errors.NoEngine):
                lpt.ask(['run', 'hybrid'], LEAVING)
            for place in ('lpt', 'crates/lpt/out/lpt'):
                path = os.path.join(top, place)
                os.makedirs(os.path.dirname(path), exist_ok=True)
                with open(path, 'w', encoding='utf-8') as file:
                    file.write('#!/bin/sh\n')
                os.chmod(path, 0o755)
                self.assertEqual(lpt.find(), [path])

    def test_a_failed_lpt_says_what_it_said(self) -> None:
        with mock.patch.dict(os.environ, {'LPT': 'sh -c "echo lpt: line 3: L6 >&2; exit 3"'}):
            self.assertEqual(lpt.answer(['run', 'hybrid'], LEAVING), lpt.Answer(3, '', 'lpt: line 3: L6'))
            with self.assertRaisesRegex(errors.NoEngine, 'status 3: lpt: line 3: L6'):
                lpt.ask(['run', 'hybrid'], LEAVING)

    @needs_lpt
    def test_a_report_of_lpt_is_read(self) -> None:
        got = report.run('hybrid', LEAVING)
        self.assertEqual(got.legs[0].opened, 3)
        self.assertEqual(got.reply(6), report.Reply(6, 'over', '', (1,), False))
        self.assertEqual(got.reply(2).value, 'old')


class Traces(unittest.TestCase):
    def test_parts(self) -> None:
        got = trace.parse(LEAVING)
        self.assertEqual((got.version, got.symbols, got.patches, got.boots),
                         (1, ['a', 'b'], {1: ['a']}, {1: 'normal', 2: 'idle'}))
        self.assertEqual([event.number for event in got.events], list(range(1, 9)))
        self.assertEqual((got.line_of(0), got.line_of(1), got.events[1].symbol), (0, 7, 'a'))
        self.assertEqual((got.events[4].child, got.events[4].shares, got.events[2].task), (3, True, None))
        self.assertEqual(got.text(), LEAVING)
        self.assertEqual(got.cut(1, ['walk']), LEAVING[:LEAVING.index('call')] + 'walk\n')

    def test_levels(self) -> None:
        got = trace.parse('lptrace 2\nsym a\nsym b\npatch 1 a\npatch 1 b\npatch 2 b\n')
        self.assertEqual([got.version_of('b', k) for k in (0, 1, 2)], [0, 1, 2])
        self.assertEqual((got.version_of('a', 2), got.top), (1, 2))
        self.assertEqual((got.numbered, got.stacked), (True, True))

    def test_the_word_of_the_third_text(self) -> None:
        text = 'lptrace 3\nsym a\npatch 1 a\nboot 1 normal\nenter 1\nresched 1\n'
        got = trace.parse(text)
        self.assertEqual((got.text(), got.events[1].task, got.numbered, got.stacked), (text, 1, True, False))
        for other in (text.replace('lptrace 3', 'lptrace 2'), LEAVING + 'resched 1\n'):
            with self.assertRaisesRegex(errors.Refused, 'none of a trace: \'resched 1\''):
                trace.parse(other)

    def test_what_is_no_trace_is_refused_with_its_line(self) -> None:
        for text, reason in (('lptrace 4\n', 'no trace'), ('lptrace 1\nsym a\npatch a', 'line 3 has no end'),
                             ('lptrace 1\nsym a\nPatch a\n', 'line 3 is none'), ('lptrace 1\nboot x normal\n', 'line 2 is none'),
                             ('lptrace 1\nwalk\nsym a\n', 'line 3 belongs before')):
            with self.assertRaisesRegex(errors.Refused, reason):
                trace.parse(text)

    def test_tasks(self) -> None:
        got = tasks.tasks_after(trace.parse(LEAVING), 5)
        self.assertEqual(got.live[1].frames, [])
        self.assertEqual((got.live[3].mode, got.live[3].group, got.live[2].kind), ('kernel', 1, 'idle'))
        self.assertEqual(tasks.tasks_after(trace.parse(LEAVING), 4, refused={4}).live[1].frames, [tasks.Frame('a', 2)])


class Reports(unittest.TestCase):
    TEXT = ('lpreport 2\nmodel hybrid\n1 done\n2 ran 1\n3 refused E6\n4 over 1 2 complete\n5 done complete\nleg 1 to 2 complete 4\n'
            'floor 1 2 3\nhold 2 2 2 3 3\nbusy 2 2 1\nleg 5 to 1 waiting 1\nwaiting 5 9 5\nborn 9 2 4\nstays 2 mixed 1\n')

    def test_lines(self) -> None:
        got = report.parse(self.TEXT)
        self.assertEqual(got.replies[3:], [report.Reply(4, 'over', '', (1, 2), True), report.Reply(5, 'done', '', (), True)])
        self.assertEqual((got.refused(), got.switched()), ({3: 'E6'}, {4: (1, 2)}))
        self.assertEqual([(leg.opened, leg.target, leg.complete, leg.waiting) for leg in got.legs],
                         [(1, '2', 4, 0), (5, '1', None, 1)])
        floor = got.legs[0].certificates[0]
        self.assertEqual(floor.lines(), ['floor 1 2 3', 'hold 2 2 2 3 3', 'busy 2 2 1'])
        self.assertEqual((floor.reasons[0].serial, floor.reasons[0].last, floor.reasons[1].first), (2, 3, 1))
        self.assertEqual((got.stays, got.mixed), (2, 1))

    def test_what_is_no_report(self) -> None:
        with self.assertRaises(errors.NoEngine):
            report.parse('accepted\n')


class SideFiles(unittest.TestCase):
    EXPECT = ('lpexpect 1\nkernel 6.1.0 #1 x86_64\ntask 1 user init\nleg 5 enable new from 3 complete 9 shown 9\nleg 10 disable old\n'
              'over 6 1 walk edge\nstays 6 2 frame\nran 7 1 new\nborn 7 3 waiting\nshown 3 8 2 -1\nlate 9 reverse\n'
              'refused 9 0 enable_-16\nwalker 9 1\nzombie 9 4 0\nidle-update 9 4 1\n')

    def test_an_expectation_is_written_as_it_was_read(self) -> None:
        got = expectation.parse(self.EXPECT)
        self.assertEqual(got.text(), self.EXPECT)
        self.assertEqual(got.legs[0], expectation.KernelLeg(5, 'enable', 'new', 3, 9, 9))
        self.assertEqual(got.decisions[4], expectation.Decision('shown', 8, 2, ('-1',), 3))

    def test_another_expectation_is_refused(self) -> None:
        for text, reason in (('lpexpect 2\n', 'not \'lpexpect 1\''), ('lpexpect 1\nkernel x\nover 6\n', 'line 3 is no decision'),
                             ('lpexpect 1\nkernel x\nmoved 6 1 x\n', 'line 3'), ('lpexpect 1\nkernel x\nover 6 1 walk', 'are cut'),
                             ('lpexpect 1\n', 'name the kernel'), ('lpexpect 1\nkernel x\nshown 1 2 3 7\n', 'line 3'),
                             ('lpexpect 1\nkernel x\nborn 1 2 maybe\n', 'line 3'), ('lpexpect 1\nkernel x\nleg 1 enable new until 9\n', 'line 3')):
            with self.assertRaisesRegex(errors.Refused, reason):
                expectation.parse(text)

    def test_names(self) -> None:
        text = ('{"version": 1, "prologue": 3, "missing": [], "tasks": {"7": {"pid": 70, "tgid": 69, "kind": "user", "comm": "a b"}}}')
        self.assertEqual(names.parse(text).tasks[7], names.Who(70, 69, 'user', 'a b'))
        for other in ('{"version": 2}', '[]', 'x'):
            with self.assertRaises(errors.Refused):
                names.parse(other)


class Recordings(unittest.TestCase):
    def setUp(self) -> None:
        self.folder = tempfile.TemporaryDirectory()
        self.addCleanup(self.folder.cleanup)
        self.path = os.path.join(self.folder.name, 'x.rec')

    def write(self) -> None:
        with recording.Writer(self.path) as out:
            out.meta({'uname': ['Linux']})
            out.proc({'snap': 1, 'tasks': []})
            out.records(['a', 'b\n'])

    def test_what_is_written_is_read(self) -> None:
        self.write()
        self.assertTrue(recording.is_recording(self.path))
        self.assertEqual(recording.read(self.path),
                         recording.Recording({'uname': ['Linux']}, [{'snap': 1, 'tasks': []}], ['a', 'b']))

    def test_empty_parts_are_there(self) -> None:
        with recording.Writer(self.path) as out:
            out.meta({})
        with gzip.open(self.path, 'rt') as file:
            self.assertEqual(file.read(), 'lprecording 1\n{}\n#PROC\n#TRACE\n#LAST\n')

    def test_nothing_is_left_of_a_recording_that_failed(self) -> None:
        with self.assertRaises(KeyError), recording.Writer(self.path) as out:
            out.meta({})
            raise KeyError
        self.assertEqual(os.listdir(self.folder.name), [])

    def test_a_cut_recording_is_refused_wherever_it_is_cut(self) -> None:
        self.write()
        with open(self.path, 'rb') as file:
            whole = file.read()
        for size in range(len(whole)):
            with open(self.path, 'wb') as file:
                file.write(whole[:size])
            with self.assertRaises(errors.Refused):
                recording.read(self.path)

    def test_other_texts_are_refused_with_their_reason(self) -> None:
        for text, reason in (('lprecording 2\n{}\n#PROC\n#TRACE\n#LAST\n', 'another version'),
                             ('lprecording 1\n{}\n#PROC\n#TRACE\n', 'is cut'), ('hello\n', 'no recording: its first line'),
                             ('lprecording 1\n{\n#PROC\n#TRACE\n#LAST\n', 'no JSON'),
                             ('lprecording 1\n{}\n#PROC\n#TRACE\n#LAST\nmore\n', 'none belong')):
            with gzip.open(self.path, 'wt') as file:
                file.write(text)
            with self.assertRaisesRegex(errors.Refused, reason):
                recording.read(self.path)

    def test_no_file_and_no_gzip(self) -> None:
        with self.assertRaisesRegex(errors.Refused, 'No such file'):
            recording.read(self.path)
        with open(self.path, 'w', encoding='utf-8') as file:
            file.write('lptrace 1\n')
        with self.assertRaisesRegex(errors.Refused, 'no recording'):
            recording.read(self.path)


class Files(unittest.TestCase):
    def test_all_or_none(self) -> None:
        with tempfile.TemporaryDirectory() as folder:
            good, bad = os.path.join(folder, 'a'), os.path.join(folder, 'none', 'b')
            files.write_all({good: 'one\n'})
            with self.assertRaisesRegex(errors.Refused, f'^{bad}: No such file'):
                files.write_all({good: 'two\n', bad: 'x'})
            self.assertEqual(files.read_text(good), 'one\n')
            self.assertEqual(os.listdir(folder), ['a'])


if __name__ == '__main__':
    unittest.main()
