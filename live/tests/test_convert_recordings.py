"""The recordings of real kernels, converted byte for byte, and their decisions held against the engine."""
import os
import tempfile
import unittest

from support import ROOT, data, needs_lpt, text_of
from test_foundation import outcome

from lpt_live import expectation, recording, report
from lpt_live.convert import converted
from lpt_live.thin import thin
from test_thin import MODELS

NAMES = ('attach', 'attach-6.12', 'attach-disable', 'attach-enable', 'hang', 'kernel-thread-6.12')
ROWS = os.path.join(ROOT, 'crates', 'lp_rows', 'data')
FAST = ('attach', 'attach-disable', 'attach-enable', 'hang', 'kernel-thread-6.12')


class Recordings(unittest.TestCase):
    def test_each_is_converted_as_it_stands(self) -> None:
        for name in NAMES:
            with self.subTest(name=name), tempfile.TemporaryDirectory() as folder:
                base = os.path.join(folder, name)
                status, _, error = outcome(['convert', data('recordings', name + '.rec'), base])
                self.assertEqual(status, 0, error)
                for end in ('.lptrace', '.expect', '.names'):
                    with open(base + end, encoding='utf-8', newline='') as file:
                        self.assertEqual(file.read(), text_of('recordings', name + end))

    def test_the_gate_plays_one_of_them(self) -> None:
        """The trace and the lists of crates/lp_rows/data are this recording's."""
        told = expectation.parse(text_of('recordings', 'kernel-thread-6.12.expect'))
        decisions, legs = told.decisions, told.legs
        rows = {'over': sorted((one.event, one.task) for one in decisions if one.word == 'over'),
                'transitions': sorted((at, word) for leg in legs for at, word in ((leg.opened, leg.word), (leg.complete or 0, 'complete'))),
                'versions': [(one.event, one.task, one.rest[0]) for one in decisions if one.word == 'ran']}
        for end, wanted in rows.items():
            with open(os.path.join(ROWS, f'resched.{end}'), encoding='utf-8') as file:
                self.assertEqual(file.read(), ''.join(' '.join(map(str, row)) + '\n' for row in wanted))
        with open(os.path.join(ROWS, 'resched.lptrace'), encoding='utf-8') as file:
            self.assertEqual(file.read(), text_of('recordings', 'kernel-thread-6.12.lptrace'))

    @needs_lpt
    def test_each_kernel_decided_as_the_engine_does(self) -> None:
        for name in NAMES:
            with self.subTest(name=name):
                status, output, error = outcome(['verify', data('recordings', name + '.lptrace')])
                self.assertEqual(status, 0, output + error)
                self.assertTrue(output.splitlines()[-1].startswith('same: '))

    @needs_lpt
    def test_the_whole_trace_has_the_same_decisions_under_each_model(self) -> None:
        for name in FAST:
            whole = converted(recording.read(data('recordings', name + '.rec')), whole=True)
            text, kept = thin(whole.trace)
            self.assertEqual(text, text_of('recordings', name + '.lptrace'))
            for model in MODELS:
                with self.subTest(name=name, model=model):
                    old, new = report.run(model, whole.trace), report.run(model, text)
                    self.assertEqual({kept[event - 1]: groups for event, groups in new.switched().items()}, old.switched())
                    self.assertEqual([(kept[leg.opened - 1], leg.complete and kept[leg.complete - 1]) for leg in new.legs],
                                     [(leg.opened, leg.complete) for leg in old.legs])

    @needs_lpt
    def test_a_recording_is_judged_by_its_whole_trace(self) -> None:
        status, output, error = outcome(['verify', data('recordings', 'attach-enable.rec')])
        self.assertEqual(status, 0, output + error)


if __name__ == '__main__':
    unittest.main()
