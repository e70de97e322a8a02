"""Thinning: the rules one by one, and the law over random traces with `lpt` on both."""
import bisect
import os
import unittest
from typing import Dict, List, Tuple

from random_traces import events_of, random_trace
from support import needs_lpt

from lpt_live import report
from lpt_live.tasks import Tasks
from lpt_live.thin import thin
from lpt_live.trace import parse

MODELS = ('hybrid', 'leave-kernel', 'all-at-once', 'immediate', 'process-group')
HEAD = 'lptrace 1\nsym a\nsym b\npatch a\nboot 1 normal\nboot 2 normal\nboot 3 idle\n'
TRACES = int(os.environ.get('THIN_TRACES', '40'))       # more of them by hand


def thinned(events: str) -> Tuple[str, List[int]]:
    """The thinned events of these, and their numbers, each a word of the text."""
    lines = [event.strip() for event in events.split(',')]
    text, kept = thin(HEAD + ''.join(line + '\n' for line in lines))
    return ', '.join(events_of(parse(text))), kept


class Rules(unittest.TestCase):
    def test_the_first_exit_of_a_stretch_and_the_mode_that_it_ends_in_stay(self) -> None:
        self.assertEqual(thinned('enter 1, sleep 1, wake 1, exit 1, enter 1, exit 1, enter 1, sleep 1, walk'),
                         ('enter 1, exit 1, enter 1, sleep 1, walk', [4, 4, 8, 8, 9]))

    def test_a_stretch_without_a_check_keeps_its_last_mode_alone(self) -> None:
        self.assertEqual(thinned('enter 1, sleep 1, wake 1, sleep 1, walk, wake 1, sleep 1, wake 1'),
                         ('enter 1, sleep 1, walk, wake 1', [4, 4, 5, 8]))

    def test_each_stretch_has_its_check(self) -> None:
        self.assertEqual(thinned('enter 1, exit 1, enable, enter 1, exit 1, walk, enter 1, exit 1')[0],
                         'enter 1, exit 1, enable, enter 1, exit 1, walk, enter 1, exit 1')

    def test_idle_points(self) -> None:
        self.assertEqual(thinned('sleep 3, wake 3, idle 3, idle 3, sleep 3, wake 3, walk'), ('idle 3, walk', [3, 7]))

    def test_calls_of_functions_that_no_patch_has_are_left_out(self) -> None:
        self.assertEqual(thinned('enter 1, call 1 b, call 1 a, call 1 b, ret 1, ret 1, ret 1, exit 1')[0],
                         'enter 1, call 1 a, ret 1, exit 1')

    def test_a_call_closes_its_own_tasks_stretch_alone(self) -> None:
        self.assertEqual(thinned('enter 1, exit 1, enter 1, enter 2, call 2 a, exit 1, enter 1, call 1 a')[0],
                         'enter 1, exit 1, enter 2, call 2 a, enter 1, call 1 a')

    def test_a_threads_death_closes_the_stretches_of_its_process(self) -> None:
        self.assertEqual(thinned('enter 1, exit 1, enter 1, fork 1 4 share, exit 1, enter 1, exit 1, die 4, enter 1, exit 1')[0],
                         'enter 1, exit 1, enter 1, fork 1 4 share, exit 1, die 4, enter 1, exit 1')

    def test_a_threads_birth_closes_its_parents_alone(self) -> None:
        self.assertEqual(thinned('enter 1, fork 1 4 share, exit 1, enter 1, fork 4 5 share, exit 1, enter 1, walk')[0],
                         'enter 1, fork 1 4 share, exit 1, fork 4 5 share, enter 1, walk')

    def test_a_process_closes_no_other(self) -> None:
        self.assertEqual(thinned('enter 2, exit 2, enter 1, fork 1 4 own, enter 2, exit 2')[0],
                         'enter 2, exit 2, enter 1, fork 1 4 own')

    def test_refused_events_are_left_out(self) -> None:
        self.assertEqual(thinned('ret 1, exit 1, enter 9, enter 1, ret 1, idle 1, fork 1 2 own, sleep 1, walk'),
                         ('enter 1, sleep 1, walk', [8, 8, 9]))


class Law(unittest.TestCase):
    """A trace and its thinned form: the same groups switch at the same checks under each model."""

    @needs_lpt
    def test_the_exit_behind_a_threads_death(self) -> None:
        whole = HEAD + ('enter 1\nfork 1 4 share\nenable\nexit 1\nenter 1\nexit 1\ndie 4\nenter 1\nexit 1\nenter 1\nexit 1\n')
        text, kept = thin(whole)
        self.assertEqual(report.run('process-group', whole).switched(), {9: (1,)})
        self.assertEqual({kept[n - 1]: groups for n, groups in report.run('process-group', text).switched().items()}, {9: (1,)})

    @needs_lpt
    def test_random_traces(self) -> None:
        count: Dict[str, int] = {'switched': 0, 'left out': 0, 'reasons': 0}
        for seed in range(TRACES):
            whole = random_trace(seed)
            text, kept = thin(whole)
            count['left out'] += whole.count('\n') - text.count('\n')
            for model in MODELS:
                with self.subTest(seed=seed, model=model):
                    self.compare(report.run(model, whole), report.run(model, text), kept, count)
        self.assertGreater(count['switched'], 5 * TRACES)
        self.assertGreater(count['reasons'], TRACES)
        self.assertGreater(count['left out'], 50 * TRACES)

    def compare(self, whole: report.Report, thinner: report.Report, kept: List[int], count: Dict[str, int]) -> None:
        """Two reports, event numbers aside."""
        def old(number: int) -> int:
            return kept[number - 1]

        self.assertEqual({old(n): groups for n, groups in thinner.switched().items()}, whole.switched())
        self.assertEqual([old(reply.event) for reply in thinner.replies if reply.complete],
                         [reply.event for reply in whole.replies if reply.complete])
        for reply in thinner.replies:
            if reply.word == 'ran':
                self.assertEqual(reply.value, whole.reply(old(reply.event)).value)
            if reply.word == 'refused':
                self.assertEqual(reply.value, whole.reply(old(reply.event)).value)
                self.assertIn(reply.value, ('E10', 'E11', 'E12'))
        self.assertEqual([(old(leg.opened), leg.target, leg.complete and old(leg.complete), leg.waiting) for leg in thinner.legs],
                         [(leg.opened, leg.target, leg.complete, leg.waiting) for leg in whole.legs])
        self.assertEqual((thinner.stays, thinner.mixed), (whole.stays, whole.mixed))
        count['switched'] += len(whole.switched())
        for leg, other in zip(thinner.legs, whole.legs):
            self.compare_certificates(leg, other, kept, count)

    def compare_certificates(self, leg: report.Leg, other: report.Leg, kept: List[int], count: Dict[str, int]) -> None:
        """Who waited and why: the same lines, event numbers aside.  A floor goes up to the event before the completion,
        whichever that is; a waiting up to the leg's last event, which may be one that was left out."""
        self.assertEqual(len(leg.certificates), len(other.certificates))
        for certificate, whole in zip(leg.certificates, other.certificates):
            self.assertEqual((certificate.claim, certificate.group), (whole.claim, whole.group))
            if certificate.claim == 'floor':
                self.assertEqual((certificate.upto + 1, whole.upto + 1), (leg.complete, other.complete))
            else:
                self.assertEqual(certificate.upto, bisect.bisect_right(kept, whole.upto))
            self.assertEqual([(reason.word, reason.task, kept[reason.first - 1], kept[reason.last - 1])
                              for reason in certificate.reasons],
                             [(reason.word, reason.task, reason.first, reason.last) for reason in whole.reasons])
            count['reasons'] += len(whole.reasons)


class Refusals(unittest.TestCase):
    @needs_lpt
    def test_what_every_model_refuses_is_told_as_lpt_tells_it(self) -> None:
        for seed in range(TRACES // 3):
            trace = parse(random_trace(1000 + seed))
            told = report.run('hybrid', trace.text()).refused()
            tasks = Tasks(trace)
            for event in trace.events:
                refusal = tasks.refusal(event)
                if event.task is not None:
                    self.assertEqual(refusal, told.get(event.number, ''), event)
                if not refusal:
                    tasks.step(event)


if __name__ == '__main__':
    unittest.main()
