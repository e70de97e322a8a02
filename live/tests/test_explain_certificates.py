"""`explain --certificate`: the trace and the reasons why a group waits, as `lpt check` accepts them."""
import os
import unittest
from typing import Optional

from explain_support import TRACE, explain, recorded
from random_traces import Generator
from support import ROOT, data, needs_lpt, text_of

from lpt_live import lpt
from lpt_live.errors import Refused, Usage
from lpt_live.explain.case import Case, chosen, transitions
from lpt_live.explain.certificate import certified
from lpt_live.explain.page import naming_of
from lpt_live.rules import MODELS

STUCK = data('explain', 'stuck.lptrace')


def certificate(case: Case, word: str, at: Optional[int] = None, leg: Optional[int] = None) -> str:
    """The text of a certificate with its trace."""
    transition = chosen(case, leg)
    assert transition is not None
    return certified(case, naming_of(case), transition, word, at)


@needs_lpt
class Certificates(unittest.TestCase):
    """What is written, and that the engine's checker accepts it."""

    def test_the_trace_comes_first(self) -> None:
        said = explain(STUCK, '--certificate', '102')
        self.assertEqual((said.status, said.fault), (0, ''))
        trace = text_of('explain', 'stuck.lptrace')
        self.assertEqual(said.output, trace + 'lpcert 1\nwaiting 7 102 17\nhold 102 102 5 8 17\n')
        self.assertEqual(lpt.answer(['check', 'hybrid'], said.output).output, 'accepted\n')

    def test_a_task_that_waits_no_more(self) -> None:
        """Task 1 went over at event 15, so that 14 is the last event after which it waited."""
        self.assertEqual(explain(STUCK, '--certificate', '1').output.splitlines()[-3:], ['waiting 7 1 14', 'busy 1 1 8', 'busy 1 1 14'])
        self.assertEqual(explain(STUCK, '--certificate', '1', '--at', '9').output.splitlines()[-2:], ['waiting 7 1 9', 'busy 1 1 8'])

    def test_who_never_waited(self) -> None:
        for words in (('--certificate', '9'), ('--certificate', '1', '--at', '16'), ('--certificate', '104', '--at', '8')):
            said = explain(STUCK, *words)
            self.assertEqual((said.status, said.output), (3, ''), words)
            self.assertIn('doesn\'t wait', said.fault)
        self.assertEqual(explain(STUCK, '--certificate', 'cat').status, 2)

    def test_no_page_goes_with_it(self) -> None:
        for words in (('--svg', 'f'), ('--html', 'f'), ('--timeline',), ('--what-if', 'reverse')):
            self.assertEqual(explain(STUCK, '--certificate', '102', *words).status, 2)

    def test_a_task_that_died(self) -> None:
        with open(os.path.join(ROOT, 'examples', 'leaving.lptrace'), encoding='utf-8') as file:
            text = file.read().replace('exit 1\n', 'die 1\n', 1)
        told = certificate(Case(text, 'hybrid', None, 'T'), '1')
        self.assertEqual(told.splitlines()[-2:], ['lpcert 1', 'waiting 3 1 4'])

    def test_other_models(self) -> None:
        """The one group of all-at-once has the number 0."""
        with open(os.path.join(ROOT, 'examples', 'stop.lptrace'), encoding='utf-8') as file:
            case = Case(file.read(), 'all-at-once', None, 'T')
        told = certificate(case, '0')
        self.assertEqual(told.splitlines()[-2:], ['waiting 3 0 5', 'hold 0 2 2 4 4'])
        self.assertEqual(lpt.answer(['check', 'all-at-once'], told).output, 'accepted\n')

    def test_of_a_recording_by_pid(self) -> None:
        told = certificate(recorded(), '70000')
        self.assertEqual(told, TRACE + 'lpcert 1\nwaiting 7 2 13\nhold 2 2 2 8 11\n')
        with self.assertRaisesRegex(Usage, 'no task of the recording has this pid'):
            certificate(recorded(), '2')

    def test_a_pid_that_was_used_again(self) -> None:
        """Of two tasks with the pid the one that waited is meant."""
        tasks = {**recorded().names.data['tasks'], '4': {'pid': 70000, 'tgid': 70000, 'kind': 'user', 'comm': 'later'}}     # type: ignore[union-attr]
        self.assertIn('waiting 7 2 13', certificate(recorded(tasks=tasks), '70000'))

    def test_random_traces(self) -> None:
        """Any group that waits at any transition's end, or that switched in it: accepted under each model."""
        told = 0
        for seed in range(6):
            text = Generator(seed).make(100)
            for model in MODELS:
                case = Case(text, model, None, 'T')
                for transition in transitions(case)[:3]:
                    groups = {one.group for one in transition.leg.certificates if one.claim == 'waiting'}
                    groups |= {group for event, some in case.report.switched().items() for group in some
                               if transition.opened < event <= transition.end}
                    for group in sorted(groups)[:3]:
                        certified(case, naming_of(case), transition, str(group), None)      # it asks `lpt check` itself
                        told += 1
        self.assertGreater(told, 50)

    def test_a_certificate_that_isnt_accepted_is_not_given_out(self) -> None:
        with self.assertRaises(Refused):
            certificate(recorded(), '44', at=9)     # it went over at event 8


if __name__ == '__main__':
    unittest.main()
