"""What `explain` is asked about: a trace with the engine's report, and the names and times of a recording if it is of one."""
import os
import sys
from typing import Dict, List, NamedTuple, Optional, Set

from .. import lpt, names, recording, report, rules, trace
from ..errors import NoEngine, Refused
from ..escape import printable
from ..files import read_text
from ..names import Names
from ..picture import Story
from ..report import Leg, Report
from ..trace import Event, Trace
from .causes import cause_in_words

MOST_EVENTS = 1000000       # of a trace
KEYS = ('kernel', 'tasks', 'patches', 'functions', 'prologue', 'times', 'began_in_transition', 'stacks', 'kernel_legs', 'kernel_says',
        'missing', 'missed', 'light')


class Case:
    """`trace`, its `report` under `model`, `names` where there is a recording (else None), `title` for the page."""

    def __init__(self, text: str, model: str, names_of_it: Optional[Names], title: str) -> None:
        self.text, self.model, self.names, self.title = text, model, names_of_it, printable(title)
        self.report = judged(text, model)
        self.trace = trace.parse(text)
        self.refused = self.report.refused()
        self.told: Optional[Story] = None
        self.looked: Optional[Dict[int, List[int]]] = None
        if names_of_it:
            self.fit(names_of_it)

    def fit(self, of: Names) -> None:
        """Refused where the names are damaged, or another trace's: a page would put one's times and tasks to the other's events."""
        lacking = [key for key in KEYS if key not in of.data]
        if lacking:
            raise Refused(f'the names lack {", ".join(lacking)}')
        try:
            fits = set(of.tasks) == set(self.numbers()) and 0 <= of.prologue <= len(self.events)
        except (KeyError, TypeError, ValueError, AttributeError):
            raise Refused('the names can\'t be read: their tasks or their prologue are none') from None
        if not fits:
            raise Refused('the names aren\'t of this trace: they have other tasks')

    @property
    def prologue(self) -> int:
        """The last event that says what was before the recording; 0 of a plain trace."""
        return self.names.prologue if self.names else 0

    @property
    def events(self) -> List[Event]:
        """The trace's events."""
        return self.trace.events

    @property
    def knows_scheduling(self) -> bool:
        """Whether the trace tells at each moment who is on a CPU: a recording of the least doesn't, nor has it calls."""
        return self.names is None or bool(self.names.get('calls_known', True))

    def story(self) -> Story:
        """Whom each check looked at, which takes a while for a long trace."""
        if self.told is None:
            self.told = Story(self.trace, self.report)
        return self.told

    @property
    def unit(self) -> str:
        """What switches at once: a task by itself, or a group."""
        return 'group' if self.model in ('process-group', 'all-at-once') else 'task'

    def groups(self) -> Dict[int, int]:
        """The group of each task that there ever is, in the order in which they appear."""
        if self.model == 'all-at-once':
            return {number: 0 for number in self.numbers()}
        got = {number: number for number in self.trace.boots}
        for event in self.events:
            if event.child is not None and event.task is not None and event.number not in self.refused:
                joins = event.shares and self.model == 'process-group'
                got[event.child] = got[event.task] if joins else event.child
        return got

    def numbers(self) -> List[int]:
        """The tasks that there ever are, in the order in which they appear."""
        born = [event.child for event in self.events if event.number not in self.refused]
        return [*self.trace.boots, *(child for child in born if child is not None)]

    def scans(self, first: int, last: int) -> List[int]:
        """The walks and stops from one event to another, reconstructed ones left out."""
        return [event.number for event in self.trace.events[max(first - 1, self.prologue):last] if event.word in trace.SCANS]

    def looks(self, group: int, first: int, last: int) -> List[int]:
        """The model's looks at a group from one event to another: the scans, and the group's own checks at `resched`."""
        if self.looked is None:
            self.looked = rules.own_checks(self.trace, self.model, self.refused)
        used = rules.CHECKS[self.model]
        scans = [number for number in self.scans(first, last) if self.events[number - 1].word in used]
        own = [number for number in self.looked.get(group, []) if max(first, self.prologue + 1) <= number <= last]
        return sorted(scans + own)

    def count_looks(self, looks: List[int]) -> str:
        """How many these are: 3 walks, 2 own checks, 5 checks."""
        words = {self.events[number - 1].word for number in looks}
        word = words.pop() if len(words) == 1 else 'check'
        word = 'own check' if word == trace.OWN_CHECK else word
        return f'{len(looks)} {word}{"" if len(looks) == 1 else "s"}'


def judged(text: str, model: str) -> Report:
    """The engine's report; Refused where it finds no trace, with the cause in plain words."""
    answer = lpt.answer(['run', model], text)
    if answer.status == 3:
        raise Refused(cause_in_words(answer.fault.splitlines()[-1] if answer.fault else '', text))
    if answer.status:
        raise NoEngine(f'lpt run {model} ended with status {answer.status}: {answer.fault}')
    return report.parse(answer.output)


def load(path: str, model: str) -> Case:
    """The case of FILE: a recording, a converted BASE, or a plain trace; `-` is a plain trace on standard input."""
    if path == '-':
        return Case(sys.stdin.buffer.read().decode('utf-8', 'surrogateescape'), model, None, 'standard input')
    if recording.is_recording(path):
        return of_recording(path, model)
    base = path[:-len('.lptrace')] if path.endswith('.lptrace') else path
    file = path if os.path.exists(path) else f'{base}.lptrace'
    text = read_text(file)
    if text.startswith('lpreport '):
        raise Refused(f'{path}: this is a report; the trace is wanted that it is of')
    has_names = file == f'{base}.lptrace' and os.path.exists(f'{base}.names')
    return Case(text, model, names.parse(read_text(f'{base}.names')) if has_names else None, os.path.basename(file))


def of_recording(path: str, model: str) -> Case:
    """The case of a recording, which is converted on the way."""
    from ..convert import converted         # the one case that needs the converter
    got = converted(recording.read(path))
    return Case(got.trace, model, got.names, os.path.basename(path))


class Transition(NamedTuple):
    """A leg as the page tells it: `number` of `total`, its events up to `end`, and the patch that it moves."""
    leg: Leg
    number: int
    total: int
    end: int
    patch: int
    turned_back: bool       # whether the next transition is its own reversal

    @property
    def opened(self) -> int:
        """The event that opened it."""
        return self.leg.opened

    @property
    def last(self) -> int:
        """Its completion, or its last event."""
        return self.leg.complete or self.end


def transitions(case: Case) -> List[Transition]:
    """The transitions that a page can be about: those of the recording, and one that was under way as it began."""
    legs, shown = case.report.legs, recorded(case)
    got: List[Transition] = []
    for place, leg in enumerate(legs):
        if place not in shown:
            continue
        following = legs[place + 1] if place + 1 < len(legs) else None
        before = legs[place - 1].target if place else '0'
        patch = max(level(leg.target), level(before))
        end = following.opened - 1 if following else len(case.events)
        turned = following is not None and case.events[following.opened - 1].word == 'reverse'
        got.append(Transition(leg, len(got) + 1, len(shown), end, patch, turned))
    return got


def recorded(case: Case) -> Set[int]:
    """The places of these among the report's legs."""
    before = [place for place, leg in enumerate(case.report.legs) if leg.opened <= case.prologue]
    shown = set(range(len(before), len(case.report.legs)))
    if before and case.names and case.names['began_in_transition']:
        shown.add(before[-1])
    return shown


def level(word: str) -> int:
    """A report's word for a level as its number."""
    return {'old': 0, 'new': 1}[word] if word in ('old', 'new') else int(word)


def chosen(case: Case, number: Optional[int]) -> Optional[Transition]:
    """The transition that was asked for, else the last; None where there is none at all."""
    found = transitions(case)
    if number is not None and not 1 <= number <= len(found):
        count = f'{len(found)} transition{"" if len(found) == 1 else "s"}'
        raise Refused(f'--leg {number}: there {"is" if len(found) == 1 else "are"} {count} in it')
    return found[number - 1 if number else -1] if found else None
