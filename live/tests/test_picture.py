"""The picture: what it draws, by hand-made runs whose checks are known, and which inputs it refuses."""
import glob
import os
import re
import subprocess
import sys
import unittest
import xml.etree.ElementTree as ElementTree
from typing import Dict, List, Tuple

from random_traces import Generator
from support import ROOT, needs_lpt

from lpt_live import report, rules, trace
from lpt_live.errors import Refused
from lpt_live.picture import Story, draw
from lpt_live.picture.command import divide, picture

SVG = '{http://www.w3.org/2000/svg}'
HEADER = 'lptrace 1\nsym a\nsym b\npatch a\n'

# Three tasks at a walk: one asleep in `a`, one asleep elsewhere, one on a CPU. The second switches; the report is written by hand from the
# definitions, so that these tests need no engine.
THREE = HEADER + ('boot 1 normal\nboot 2 normal\nboot 3 normal\nenter 1\ncall 1 a\nsleep 1\nenter 2\nsleep 2\nenable\nwalk\nenter 3\nexit 3\n')
THREE_REPORT = ('lpreport 1\nmodel hybrid\n1 done\n2 ran old\n3 done\n4 done\n5 done\n6 done\n7 over 2\n8 done\n9 over 3\n'
                'leg 6 new waiting 1\nwaiting 6 1 9\nhold 1 1 2 7 7\nstays 1 mixed 0\n')


def story_of(text: str, told: str) -> Story:
    """The story of a trace and a report."""
    return Story(trace.parse(text), report.parse(told))


def marks_of(text: str, model: str) -> List[Tuple[int, int, str]]:
    """Each check's look at a task, of the engine's report."""
    return [(mark.event, mark.task, mark.kind) for mark in story_of(text, '\n'.join(report_lines(model, text))).marks]


def report_lines(model: str, text: str) -> List[str]:
    """The lines of the engine's report."""
    from lpt_live import lpt
    return lpt.ask(['run', model], text).splitlines()


def words_of(text: ElementTree.Element) -> str:
    """What a text shows, its tooltip left out."""
    return (text.text or '') + ''.join(child.tail or '' for child in text)


class Drawn(unittest.TestCase):
    """What lies on the sheet."""

    def setUp(self) -> None:
        self.text = draw(story_of(THREE, THREE_REPORT))
        self.root = ElementTree.fromstring(self.text)
        self.titles = [title.text or '' for title in self.root.iter(f'{SVG}title')]

    def classes(self) -> Dict[str, int]:
        """How many elements each class has."""
        found: Dict[str, int] = {}
        for element in self.root.iter():
            for name in element.get('class', '').split():
                found[name] = found.get(name, 0) + 1
        return found

    def test_each_look_has_its_own_mark(self) -> None:
        """One ring each for 2 and 3, a cross for the frame, a triangle for the busy one; and one of each in the legend."""
        found = self.classes()
        self.assertEqual((found['lp-over'], found['lp-frame'], found['lp-busy']), (3, 2, 2))
        self.assertNotIn('lp-group', found)

    def test_tooltips_say_who_where_and_why(self) -> None:
        self.assertIn('task 1, walk at event 7 (line 14): refused, a, called at event 2 (line 9), is on its stack', self.titles)
        self.assertIn('task 3, walk at event 7 (line 14): refused, busy: on a CPU', self.titles)
        self.assertIn('task 2, walk at event 7 (line 14): switches', self.titles)
        self.assertIn('task 1: off its CPU in the kernel, on the old level, from event 3 (line 10); stack: a', self.titles)

    def test_the_legend_tells_the_signs_that_are_there(self) -> None:
        texts = [text.text for text in self.root.iter(f'{SVG}text')]
        for meaning in ('in user space', 'off its CPU in the kernel', 'in the kernel on a CPU', 'a patched function is on its stack',
                        'the old level', 'the new level', 'a check at which it switches', 'refused: stale code on its stack',
                        'refused: busy, on a CPU'):
            self.assertIn(meaning, texts)
        self.assertNotIn('held back by others of its group', texts)

    def test_light_and_dark(self) -> None:
        self.assertIn('prefers-color-scheme:dark', self.text)
        self.assertEqual(re.findall(r'https?://[^"]*', self.text), ['http://www.w3.org/2000/svg'])

    def test_events_and_tasks_can_be_chosen(self) -> None:
        part = draw(story_of(THREE, THREE_REPORT), (6, 7), [2])
        labels = [words_of(text) for text in ElementTree.fromstring(part).iter(f'{SVG}text')]
        self.assertEqual([label for label in labels if label.startswith('task ')], ['task 2'])
        self.assertNotIn('event 9', part)

    def test_a_refused_event_is_marked(self) -> None:
        text = HEADER + 'boot 1 normal\nsleep 1\n'
        drawn = draw(story_of(text, 'lpreport 1\nmodel hybrid\n1 refused E6\nstays 0 mixed 0\n'))
        self.assertIn('sleep 1, at event 1 (line 6): refused, E6', drawn)

    def test_names_are_escaped(self) -> None:
        text = THREE.replace('sym a\n', 'sym <a>&"\n').replace('patch a\n', 'patch <a>&"\n').replace('call 1 a', 'call 1 <a>&"')
        drawn = draw(story_of(text, THREE_REPORT))
        self.assertIn('stack: &lt;a&gt;&amp;&quot;', drawn)
        ElementTree.fromstring(drawn)


class Stories(unittest.TestCase):
    """Whom a check looks at, under each model, by the engine's reports."""

    @needs_lpt
    def test_a_cross_only_where_the_model_looks(self) -> None:
        """Under leave-kernel a walk looks at nobody, under all-at-once a stop alone does."""
        self.assertEqual(marks_of(THREE, 'hybrid'), [(7, 1, 'frame'), (7, 2, 'switch'), (7, 3, 'busy'), (9, 3, 'switch')])
        self.assertEqual(marks_of(THREE, 'leave-kernel'), [(9, 3, 'switch')])
        self.assertEqual(marks_of(THREE, 'all-at-once'), [])
        self.assertEqual(marks_of(THREE, 'immediate'), [(7, 1, 'switch'), (7, 2, 'switch'), (7, 3, 'switch')])
        self.assertEqual(marks_of(THREE, 'process-group'), [(7, 1, 'frame'), (7, 2, 'switch'), (7, 3, 'switch')])
        stopped = THREE.replace('walk', 'stop')
        self.assertEqual(marks_of(stopped, 'all-at-once'), [(7, 1, 'frame'), (7, 2, 'group'), (7, 3, 'group')])

    @needs_lpt
    def test_stories_are_the_reports(self) -> None:
        """Each reply to each event is followed, on the examples under each model, on the long recordings under two."""
        paths = glob.glob(os.path.join(ROOT, 'examples', '*.lptrace')) + glob.glob(os.path.join(ROOT, 'crates', 'lp_rows', 'data', '*.lptrace'))
        self.assertGreater(len(paths), 9)
        for path in paths:
            with open(path, encoding='utf-8') as file:
                text = file.read()
            for model in rules.MODELS if len(text) < 10000 else ('hybrid', 'leave-kernel'):
                with self.subTest(path=os.path.basename(path), model=model):
                    told = '\n'.join(report_lines(model, text))
                    got = story_of(text, told)
                    self.assertEqual(len(got.legs), len(report.parse(told).legs))

    @needs_lpt
    def test_random_traces(self) -> None:
        """With refused events, forks, deaths, stacked patches and reversals each reply is followed too, and the picture is well-formed."""
        for seed in range(12):
            text = Generator(seed).make(100)
            for model in rules.MODELS:
                with self.subTest(seed=seed, model=model):
                    told = '\n'.join(report_lines(model, text))
                    ElementTree.fromstring(draw(story_of(text, told)))

    @needs_lpt
    def test_refusals_are_those_of_the_certificates(self) -> None:
        """Where a task waits at the end, each walk that its certificate blames a frame for has a cross, and each busy one a triangle."""
        with open(os.path.join(ROOT, 'crates', 'lp_rows', 'data', 'busy.lptrace'), encoding='utf-8') as file:
            text = file.read()
        of_trace, lines = trace.parse(text), report_lines('hybrid', text)
        marks = {(mark.event, mark.task): mark for mark in story_of(text, '\n'.join(lines)).marks}
        told = 0
        for leg in report.parse('\n'.join(lines)).legs:
            for reason in [reason for one in leg.certificates for reason in one.reasons if reason.word != 'born']:
                for event in of_trace.events[reason.first - 1:reason.last]:
                    if event.word == 'walk':
                        mark = marks[event.number, reason.task]
                        self.assertEqual(mark.kind, 'frame' if reason.word == 'hold' else 'busy')
                        self.assertEqual(mark.frame.serial if mark.frame else None, reason.serial if reason.word == 'hold' else None)
                        told += 1
        self.assertGreater(told, 2)


class Refusals(unittest.TestCase):
    """Inputs of which no picture can be drawn."""

    def refused(self, text: str) -> str:
        """Why an input is refused."""
        with self.assertRaises(Refused) as caught:
            picture(text, None, [])
        return str(caught.exception)

    def test_one_without_the_other(self) -> None:
        self.assertIn('a report without its trace', self.refused(THREE_REPORT))
        self.assertIn('a trace without its report', self.refused(THREE))
        self.assertIn('empty', self.refused(''))

    def test_the_input_is_divided_at_the_report(self) -> None:
        self.assertEqual(divide(THREE + THREE_REPORT), (THREE, THREE_REPORT))

    def test_a_report_of_another_trace(self) -> None:
        """Too few events, too many, another header, and each reply that can't be of its event."""
        self.assertIn('9 replies, the trace 8 events', self.refused(THREE.replace('exit 3\n', '') + THREE_REPORT))
        self.assertIn('9 replies, the trace 10 events', self.refused(THREE + 'walk\n' + THREE_REPORT))
        self.assertIn('of no trace `lptrace 2`', self.refused(THREE.replace('lptrace 1', 'lptrace 2').replace('patch a', 'patch 1 a') + THREE_REPORT))
        for old, new, why in (('7 over 2\n', '7 over 1 2\n', 'event 7 (line 14, walk): the list of groups that switched is 1 2 in the report and 2 by'),
                              ('7 over 2\n', '7 done\n', 'is none in the report and 2 by the trace'),
                              ('2 ran old', '2 ran new', 'the level that ran is new'), ('1 done', '1 ran old', 'the level that ran'),
                              ('3 done', '3 refused E6', 'the refusal is E6 in the report and none'),
                              ('9 over 3\n', '9 over 3 complete\n', 'the completion'), ('leg 6 new waiting 1', 'leg 5 new waiting 1', 'its legs'),
                              ('leg 6 new waiting 1', 'leg 6 new complete 9', 'its legs'), ('model hybrid', 'model mine', 'isn\'t known'),
                              ('8 done\n', '', '8 replies')):
            with self.subTest(new=new or old):
                self.assertIn(old, THREE_REPORT)
                self.assertIn(why, self.refused(THREE + THREE_REPORT.replace(old, new)))

    def test_a_report_that_is_cut(self) -> None:
        self.assertIn('can\'t be read', self.refused(THREE + 'lpreport 1\n'))
        self.assertIn('replies', self.refused(THREE + THREE_REPORT[:60].rsplit('\n', 1)[0] + '\n'))

    def test_events_and_tasks_that_there_are_not(self) -> None:
        with self.assertRaisesRegex(Refused, 'no task 9'):
            draw(story_of(THREE, THREE_REPORT), tasks=[9])
        with self.assertRaisesRegex(Refused, '9 events, so none from 10 on'):
            draw(story_of(THREE, THREE_REPORT), (10, 12))


class Command(unittest.TestCase):
    """scripts/picture as a process."""

    def run_it(self, text: str, *words: str) -> 'subprocess.CompletedProcess[str]':
        """The command on an input."""
        return subprocess.run([sys.executable, os.path.join(ROOT, 'scripts', 'picture'), *words], input=text, capture_output=True,
                              text=True, check=False)

    def test_it_draws(self) -> None:
        done = self.run_it(THREE + THREE_REPORT, '--events', '2-8', '--tasks', '1,3')
        self.assertEqual((done.returncode, done.stderr), (0, ''))
        ElementTree.fromstring(done.stdout)

    def test_it_refuses(self) -> None:
        done = self.run_it(THREE_REPORT)
        self.assertEqual((done.returncode, done.stdout), (3, ''))
        self.assertIn('picture: a report without its trace', done.stderr)
        bad = subprocess.run([sys.executable, os.path.join(ROOT, 'scripts', 'picture')], input=b'\xff\xfe', capture_output=True, check=False)
        self.assertEqual((bad.returncode, bad.stdout), (3, b''))
        self.assertNotIn(b'Traceback', bad.stderr)
        for words in (('--events', '8-2'), ('--events', '0-2'), ('--tasks', 'x'), ('--nothing',)):
            self.assertEqual(self.run_it(THREE + THREE_REPORT, *words).returncode, 2)

    @needs_lpt
    def test_the_picture_of_the_docs_is_drawn_by_it(self) -> None:
        """docs/basic.svg is what the command draws of the recording, as docs/recordings.md says."""
        with open(os.path.join(ROOT, 'crates', 'lp_rows', 'data', 'basic.lptrace'), encoding='utf-8') as file:
            text = file.read()
        told = '\n'.join(report_lines('hybrid', text)) + '\n'
        done = self.run_it(text + told, '--events', '1560-1720', '--tasks', '97,98,99,100,101,102,103,104,105,106,110,111,112,4095,4096')
        with open(os.path.join(ROOT, 'docs', 'basic.svg'), encoding='utf-8') as file:
            self.assertEqual(done.stdout, file.read())


if __name__ == '__main__':
    unittest.main()
