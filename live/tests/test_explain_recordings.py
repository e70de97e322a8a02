"""The pages of the recordings in tests/data/recordings: byte for byte, and held against what the kernel itself decided.

A page stored is what the program writes, so by itself it says only that nothing changed.  The second half of this file reads the facts
of a page back out of it and looks each up in NAME.expect, which is made of the kernel's own probes without the engine.
"""
import functools
import glob
import os
import re
import unittest
from typing import Dict, List, NamedTuple, Optional, Tuple

from explain_support import explain
from support import data, needs_lpt, text_of

from lpt_live import expectation, lpt, names, trace
from lpt_live.expectation import Expectation

NAMES = sorted(os.path.basename(path)[:-len('.rec')] for path in glob.glob(data('recordings', '*.rec')))
WORDS = ('--timeline', '--what-if', 'reverse')
CHECKS = '(?:walk|own check|check)s?'         # what pages count


@functools.lru_cache(maxsize=None)
def page_of(name: str, *words: str) -> str:
    """What the program writes of a recording: of its trace and names, which the tests of the converter hold against it."""
    said = explain(data('recordings', name), *words)
    assert (said.status, said.fault) == (0, ''), said
    return said.output


class Told(NamedTuple):
    """What a page says of a task."""
    pid: int
    lines: str

    def number(self, pattern: str) -> Optional[int]:
        """The number in a sentence, or None."""
        found = re.search(pattern, self.lines)
        return int(found[1]) if found else None


def tasks_of(page: str) -> List[Told]:
    """The tasks that the page tells one by one."""
    found = re.findall(r'^  \S.* \(pid (\d+).*\)\n((?:    .*\n)+)', page, re.M)
    return [Told(int(pid), lines) for pid, lines in found]


class Facts(NamedTuple):
    """What the kernel decided: in which event it moved each task, and at which walks it refused it."""
    moves: Dict[int, List[int]]
    refusals: Dict[int, List[int]]
    kernel: Expectation


def facts_of(name: str) -> Tuple[Facts, Dict[int, int]]:
    """The kernel's decisions of a recording, and its tasks by their pids (no pid is used twice by a task that waits)."""
    told = expectation.parse(text_of('recordings', f'{name}.expect'))
    moves: Dict[int, List[int]] = {}
    refusals: Dict[int, List[int]] = {}
    for one in told.decisions:
        if one.word == 'over' and one.rest[0] != 'told':
            moves.setdefault(one.task, []).append(one.event)
        if one.word == 'stays':
            refusals.setdefault(one.task, []).append(one.event)
    tasks = names.parse(text_of('recordings', f'{name}.names')).tasks
    return Facts(moves, refusals, told), {known.pid: task for task, known in tasks.items() if task in moves or task in refusals}


@needs_lpt
class Pages(unittest.TestCase):
    """What is written."""

    def test_there_are_six(self) -> None:
        self.assertGreaterEqual(len(NAMES), 6)

    def test_byte_for_byte(self) -> None:
        for name in NAMES:
            with self.subTest(name=name):
                self.assertEqual(page_of(name, *WORDS), text_of('recordings', f'{name}.page'))

    def test_the_recording_itself(self) -> None:
        """It is converted on the way; the smallest one does for that. The trace's own file name is understood too."""
        smallest = min(NAMES, key=lambda name: os.path.getsize(data('recordings', f'{name}.rec')))
        for path in (f'{smallest}.rec', f'{smallest}.lptrace'):
            self.assertEqual(explain(data('recordings', path), *WORDS).output, text_of('recordings', f'{smallest}.page'))

    def test_certificates(self) -> None:
        """Of each task that a page says waits, one that `lpt check` accepts."""
        told = 0
        for name in NAMES:
            for task in tasks_of(text_of('recordings', f'{name}.page')):
                said = explain(data('recordings', name), '--certificate', str(task.pid))
                self.assertEqual((said.status, said.fault), (0, ''), (name, task.pid))
                self.assertEqual(lpt.answer(['check', 'hybrid'], said.output).output, 'accepted\n')
                told += 1
        self.assertGreater(told, 6)


@needs_lpt
class Kernel(unittest.TestCase):
    """What the pages say, looked up in the kernel's own decisions."""

    def leg(self, page: str, facts: Facts) -> expectation.KernelLeg:
        """The transition that a page is about: the last one, as no other was asked for."""
        found = re.search(r'^TRANSITION (\d+) of (\d+): ', page, re.M)
        assert found is not None and found[1] == found[2]
        return facts.kernel.legs[-1]

    def moment(self, name: str, page: str, opened: int) -> int:
        """The walk after which the page tells who waits: the first recorded one, or the last if the transition isn't complete."""
        prologue = names.parse(text_of('recordings', f'{name}.names')).prologue
        events = trace.parse(text_of('recordings', f'{name}.lptrace')).events
        walks = [event.number for event in events if event.word == 'walk' and event.number > max(opened, prologue)]
        return walks[0] if '\nCOMPLETE ' in page else walks[-1]

    def test_all_of_them_agree_with_the_engine(self) -> None:
        """The number of moves is the kernel's; the recordings are of kernels that decided as hybrid does."""
        for name in NAMES:
            page, (facts, _) = page_of(name), facts_of(name)
            leg = self.leg(page, facts)
            count = sum(event > leg.opened for events in facts.moves.values() for event in events)
            self.assertIn(f'The kernel moved {count} task{"" if count == 1 else "s"} in it, the engine the same at the same events.', page)

    def test_who_waits_and_what_became_of_it(self) -> None:
        """How often each task was refused up to the page's moment, and the event at which the kernel moved it, if it did."""
        seen = 0
        for name in NAMES:
            page, (facts, task_of) = page_of(name), facts_of(name)
            opened = self.leg(page, facts).opened
            upto = self.moment(name, page, opened)
            for told in tasks_of(page):
                task = task_of[told.pid]
                refused = [event for event in facts.refusals.get(task, []) if opened < event <= upto]
                self.assertEqual(told.number(rf'(\d+) {CHECKS} found it'), len(refused), (name, told))
                moved = [event for event in facts.moves.get(task, []) if event > upto]
                if moved:
                    before = [event for event in facts.refusals[task] if opened < event < moved[0]]
                    self.assertEqual(told.number(rf'\((\d+) {CHECKS}(?: in the recording)? refused it\)'), len(before), (name, told))
                self.assertEqual(told.number(r'WENT OVER [^(]*\(event (\d+)\)'), moved[0] if moved else None, (name, told))
                seen += 1
        self.assertGreater(seen, 6)

    def test_everybody_who_was_refused_is_told(self) -> None:
        """At the page's moment exactly those wait that the kernel refused there."""
        for name in NAMES:
            page, (facts, task_of) = page_of(name), facts_of(name)
            upto = self.moment(name, page, self.leg(page, facts).opened)
            refused = {task for task, events in facts.refusals.items() if upto in events}
            self.assertEqual({task_of[told.pid] for told in tasks_of(page)}, refused, name)

    def test_the_completion(self) -> None:
        """At or before the kernel's walk that noticed it, and not before the kernel's last move."""
        for name in NAMES:
            page, (facts, _) = page_of(name), facts_of(name)
            leg = self.leg(page, facts)
            found = re.search(r'^COMPLETE [^(]*\(event (\d+)\)', page, re.M)
            self.assertEqual(found is None, leg.complete is None, name)
            if found is None:
                self.assertIn('STILL OPEN at the end of the recording', page)
                continue
            last = max(event for events in facts.moves.values() for event in events if event <= (leg.complete or 0))
            self.assertLessEqual(last, int(found[1]), name)
            self.assertLessEqual(int(found[1]), leg.complete or 0, name)
            self.assertEqual('The kernel noticed at its next walk' in page, int(found[1]) < (leg.complete or 0))


if __name__ == '__main__':
    unittest.main()
