"""`verify` on a trace of a kernel that was wrong, and on inputs that can't be judged."""
import os
import shutil
import tempfile
import unittest
from typing import List, Tuple
from unittest import mock

from support import data, needs_lpt, text_of
from test_foundation import outcome
from test_verify import EXPECT, TRACE

from lpt_live import verify
from lpt_live.convert import output


@needs_lpt
class WrongKernel(unittest.TestCase):
    """Linux 6.1 with preempt=full: three tasks were moved with a stale function on their stacks."""

    def test_it_moved_tasks_too_early(self) -> None:
        status, said, _ = outcome(['verify', data('differ-thunk.lptrace')])
        lines = said.splitlines()
        self.assertEqual((status, len(lines)), (1, 4))
        for line, task, walk, called, end in zip(lines, ('102 (k4)', '101 (k3)', '100 (k2)'), (803, 1419, 1834),
                                                 (385, 442, 401), (2294, 2325, 2305)):
            self.assertRegex(line, fr'^too early: task {task[:3]} \({task[5:7]}\) was switched at event {walk} \(line {walk + 64}: walk\) '
                             fr'though it had a stale frame: a, the old version, called by event {called} .*; '
                             fr'the engine switches it at event {end} ')
        self.assertTrue(lines[-1].startswith('differs: 6 decisions, of 62 switches, 6 refusals, 8 versions, 1 birth, in 1 transition'))


@needs_lpt
class Names(unittest.TestCase):
    def test_probes_that_missed_records_are_a_caution(self) -> None:
        with tempfile.TemporaryDirectory() as folder:
            for end in ('.lptrace', '.expect'):
                shutil.copy(data('recordings', 'attach' + end), os.path.join(folder, 'x' + end))
            with open(os.path.join(folder, 'x.names'), 'w', encoding='utf-8') as file:
                file.write(text_of('recordings', 'attach.names').replace('"missed": {}', '"missed": {"check": 3}'))
            status, said, _ = outcome(['verify', os.path.join(folder, 'x.lptrace')])
        self.assertEqual(status, 0)
        self.assertEqual(said.splitlines()[0], 'caution: the probe check missed 3 records; what follows may be wrong')

    def test_names_of_tasks_are_those_of_the_names(self) -> None:
        with tempfile.TemporaryDirectory() as folder:
            for end in ('.lptrace', '.names'):
                shutil.copy(data('recordings', 'attach' + end), os.path.join(folder, 'x' + end))
            with open(os.path.join(folder, 'x.expect'), 'w', encoding='utf-8') as file:
                file.write(text_of('recordings', 'attach.expect').replace(' exit\n', ' idle\n').replace('over ', 'zombie ', 1))
            status, said, _ = outcome(['verify', os.path.join(folder, 'x.lptrace')])
        self.assertEqual(status, 1)
        self.assertRegex(said, r'^too late: task \d+ \(init, pid 1\) could be switched')


class BadInput(unittest.TestCase):
    def refused(self, files: List[Tuple[str, str]], name: str, reason: str) -> None:
        """Verify of a file among these must end with status 3 and the reason."""
        with tempfile.TemporaryDirectory() as folder:
            for end, text in files:
                with open(os.path.join(folder, end), 'w', encoding='utf-8') as file:
                    file.write(text)
            status, said, error = outcome(['verify', os.path.join(folder, name)])
            self.assertEqual((status, said), (3, ''))
            self.assertRegex(error, reason)

    def test_a_recording_too_long_for_lpt_is_judged_thinned(self) -> None:
        path = data('recordings', 'attach-enable.rec')
        self.assertIn('whole', verify.of_recording(path).which)
        with mock.patch.object(output, 'MOST_EVENTS', 180):
            source = verify.of_recording(path)
        self.assertEqual((source.which, source.text), ('of the thinned trace (lpt-live convert)',
                                                       text_of('recordings', 'attach-enable.lptrace')))

    def test_no_decisions_beside(self) -> None:
        self.refused([('x.lptrace', TRACE)], 'x.lptrace', 'x.expect isn\'t there')

    def test_neither_a_recording_nor_a_trace(self) -> None:
        self.refused([('x.txt', 'hello\n')], 'x.txt', 'x.txt: neither a recording nor a trace')

    def test_an_lpt_that_fails_is_asked_once(self) -> None:
        with tempfile.TemporaryDirectory() as folder:
            shutil.copy(data('differ-thunk.lptrace'), folder)
            shutil.copy(data('differ-thunk.expect'), folder)
            asked = os.path.join(folder, 'asked')
            with mock.patch.dict(os.environ, {'LPT': f'sh -c "echo once >> {asked}; echo lpt: out of memory >&2; exit 5"'}):
                status, said, error = outcome(['verify', os.path.join(folder, 'differ-thunk.lptrace')])
            with open(asked, encoding='utf-8') as file:
                self.assertEqual(file.read(), 'once\n')
        self.assertEqual((status, said), (4, ''))
        self.assertIn('ended with status 5: lpt: out of memory', error)

    def test_no_file(self) -> None:
        self.refused([], 'x.lptrace', 'No such file')

    def test_decisions_that_are_cut(self) -> None:
        self.refused([('x.lptrace', TRACE), ('x.expect', EXPECT[:-4])], 'x.lptrace', 'x.expect: line 20 has no end')

    @needs_lpt
    def test_decisions_of_another_trace(self) -> None:
        self.refused([('x.lptrace', TRACE), ('x.expect', EXPECT + 'over 99 1 walk\n')], 'x.lptrace', 'another trace: \'over 99 1 walk\'')
        self.refused([('x.lptrace', TRACE), ('x.expect', EXPECT.replace('leg 8', 'leg 9'))], 'x.lptrace', 'no transition opens')
        self.refused([('x.lptrace', TRACE), ('x.expect', EXPECT + 'over 0 1 walk\n')], 'x.lptrace', 'another trace')
        self.refused([('x.lptrace', TRACE), ('x.expect', EXPECT.replace('ran 2 1 old', 'ran 2 1 0'))], 'x.lptrace', 'none of its levels')
        for line, event in (('ran 9 1 old', 'walk'), ('born 9 4 over', 'walk'), ('refused 9 0 x', 'walk'), ('late 9 reverse', 'walk')):
            self.refused([('x.lptrace', TRACE), ('x.expect', EXPECT + line + '\n')], 'x.lptrace', f'and that event is {event!r}')

    @needs_lpt
    def test_no_trace(self) -> None:
        self.refused([('x.lptrace', TRACE.replace('sym b', 'sym a')), ('x.expect', EXPECT)], 'x.lptrace', 'lpt: line 3: L6')

    @needs_lpt
    def test_of_the_data(self) -> None:
        self.refused([('x.lptrace', text_of('differ-thunk.lptrace')[:-3]), ('x.expect', text_of('differ-thunk.expect'))], 'x.lptrace',
                     'L2')


if __name__ == '__main__':
    unittest.main()
