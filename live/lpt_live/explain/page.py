"""What a page says of one transition, before it is text or HTML."""
from typing import List, NamedTuple, Optional

from ..errors import Refused
from .case import Case, Transition, level
from .kernel import Kernel
from .models import Comparison, compare
from .naming import Naming, RecordedNaming, plural
from .refusals import Refusals
from .timeline import Timeline
from .waiting import Moment, Waiters
from .what_if import what_if

NOTABLE = 0.5       # seconds without a mark, of which a page tells: marks are to come ten times a second
OPENINGS = {'enable': 'patching', 'disable': 'unpatching', 'reverse': 'turned round'}


class Question(NamedTuple):
    """What is asked of the transition."""
    at: Optional[str] = None
    what_if: Optional[str] = None
    timeline: bool = False


class Page(NamedTuple):
    """The parts of a page, as lines of text; the waiters and the models' rows for tables too."""
    title: str
    head: List[str]
    cautions: List[str]
    transition: str
    ending: List[str]
    complete: bool
    waiting_title: str
    waiting_count: str
    waiters: Waiters
    what_if: str
    comparison: Comparison
    timeline: List[str]


def naming_of(case: Case) -> Naming:
    """How the case names things."""
    return RecordedNaming(case, case.names) if case.names else Naming(case)


def moment_of(naming: Naming, transition: Transition, word: str) -> int:
    """The event of `--at`; Refused where it isn't in the transition."""
    at = naming.event_at(word)
    if not transition.opened <= at <= transition.end:
        raise Refused(f'--at {word}: event {at} isn\'t in this transition, which goes from event {transition.opened} to '
                      f'{transition.end}')
    return at


class Author:
    """Writes the parts of the page of one transition."""

    def __init__(self, case: Case, naming: Naming, transition: Transition, question: Question) -> None:
        self.case, self.naming, self.transition, self.question = case, naming, transition, question
        self.recorded = naming if isinstance(naming, RecordedNaming) else None
        self.kernel = Kernel(case, self.recorded) if self.recorded else None
        if self.recorded:
            self.recorded.open(transition)
        self.scans = case.scans(transition.opened, transition.end)
        self.at = self.moment()

    def moment(self) -> int:
        """The event after which is told who waits: what was asked for, the first scan of a complete transition, else the end."""
        if self.question.at:
            return moment_of(self.naming, self.transition, self.question.at)
        if self.transition.leg.complete:
            return self.scans[0] if self.scans else self.transition.opened
        return self.transition.end

    def page(self) -> Page:
        """The whole page."""
        moment = Moment(self.case, self.naming, self.kernel, self.transition, self.at)
        waiters = moment.listed()
        timeline = Timeline(self.case, self.naming, self.kernel, self.transition).lines() if self.has_timeline() else []
        return Page(
            self.title(), self.head(), self.cautions(), self.opening(), self.ending(), self.transition.leg.complete is not None,
            self.waiting_title(), self.waiting_count(waiters.total, len(moment.tasks.live)), waiters,
            what_if(self.case, self.naming, self.at) if self.question.what_if else '',
            compare(self.case, self.naming, self.transition), timeline)

    def has_timeline(self) -> bool:
        """Whether a timeline is wanted and can be had."""
        return self.question.timeline and (self.recorded is None or self.recorded.clock.when(self.transition.last) is not None)

    # -- what it is about
    def title(self) -> str:
        """The patch and its functions, or the trace."""
        patch = self.transition.patch
        if self.recorded:
            name = self.recorded.patch(patch)
            return f'Patch {name}: {", ".join(self.recorded.functions(patch))}'
        name = f'patch {patch} of {self.case.trace.top}' if self.case.trace.stacked else 'the patch'
        return f'Trace {self.case.title}: {name} replaces {", ".join(self.case.trace.patches[patch])}'

    def head(self) -> List[str]:
        """Where the events come from."""
        counts = f'{plural(len(self.tasks()), "task")}, {plural(len(self.case.events), "event")}'
        if not self.recorded:
            return [f'{counts}, under {self.case.model}']
        clock, names = self.recorded.clock, self.recorded.names
        times = f', {clock.of_day(clock.seconds[0])} to {clock.of_day(clock.seconds[-1])} {clock.zone()}' if clock.seconds else ''
        return [f'Recorded on {self.recorded.printable(names["kernel"])}; {counts}{times}']

    def tasks(self) -> List[int]:
        """All tasks, by the recording or by the trace."""
        return list(self.recorded.tasks) if self.recorded else self.case.numbers()

    def cautions(self) -> List[str]:
        """What may make the page wrong: refused events of a plain trace, what a recording lacks."""
        if self.recorded is None:
            return Refusals(self.case, self.naming).lines()
        names, lines = self.recorded.names, []
        if names['missed']:
            missed = ', '.join(f'{probe} {count}' for probe, count in names['missed'].items())
            lines.append(f'CAUTION: probes missed calls ({self.recorded.printable(missed)}); what follows may be wrong')
        lines += [f'missing: {self.recorded.printable(text)}' for text in names.missing]
        if names['light']:
            lines.append('light: system calls weren\'t recorded, so between two checks a task may be elsewhere than it is said to be')
        apart = self.recorded.clock.apart(self.transition.opened, self.transition.last)
        if apart > NOTABLE:
            lines.append(f'times: the recorder told the time up to {apart:.1f} s apart here; what lies between is estimated')
        return lines

    def opening(self) -> str:
        """The transition, its target, its opening."""
        word = OPENINGS[self.case.events[self.transition.opened - 1].word]
        begin = f'opened {self.naming.at(self.transition.opened)}'
        if self.recorded and self.recorded.begun is not None and self.recorded.clock.when(self.transition.opened) is None:
            begin = f'opened {self.recorded.clock.of_day(self.recorded.begun)} by the kernel\'s log, before the recording'
        return (f'TRANSITION {self.transition.number} of {self.transition.total}: {word}, to '
                f'{self.naming.level(level(self.transition.leg.target))}; {begin}')

    # -- how it went
    def ending(self) -> List[str]:
        """How it ended, how often it was looked at, and whether the kernel and the engine agree."""
        lines = [self.end(), *(self.kernel.completion(self.transition) if self.kernel else []), self.looks()]
        if self.kernel:
            lines += self.kernel.agreement(self.transition) + self.kernel.messages(self.transition)
        return lines

    def end(self) -> str:
        """How it ended."""
        opened, complete, end = self.transition.opened, self.transition.leg.complete, self.transition.end
        if complete == opened:
            return 'It was complete as it opened: nobody was off the target.'
        if complete:
            return f'COMPLETE {self.naming.at(complete)}, {self.naming.span(opened, complete)} after its opening.'
        if self.transition.turned_back:
            return f'TURNED ROUND {self.naming.at(end + 1)}, {self.naming.span(opened, end + 1)} after its opening.'
        what = 'recording' if self.recorded else 'trace'
        return f'STILL OPEN at the end of the {what}, {self.naming.span(opened, end)} after its opening.'

    def looks(self) -> str:
        """How often all stacks were looked at."""
        if self.recorded:
            within = ' in the recording' if self.transition.opened <= self.case.prologue else ''
            return f'The kernel walked over the stacks {plural(len(self.scans), "time")}{within}.'
        walks = sum(self.case.events[number - 1].word == 'walk' for number in self.scans)
        counts = [plural(count, word) for count, word in ((walks, 'walk'), (len(self.scans) - walks, 'stop')) if count]
        return f'In it there {"was" if len(self.scans) == 1 else "were"} {" and ".join(counts) or "no walks and no stops"}.'

    def waiting_title(self) -> str:
        """What the list of waiters is of."""
        complete = self.transition.leg.complete
        if self.question.at:
            return f'WHO WAITED {self.naming.at(self.at)}'
        if complete is None:
            return f'WHO {"WAITED as it was turned round" if self.transition.turned_back else "WAITS"}'
        if self.at >= complete:
            return '' if complete == self.transition.opened else f'The first {self.first_scan()} found everybody fit to go over.'
        return f'WHO WAS LEFT after the first {self.first_scan()}' if self.scans else 'WHO WAITED at its opening'

    def waiting_count(self, waiters: int, live: int) -> str:
        """How many wait, of how many."""
        more = f' of {live}' if self.case.unit == 'task' else f' ({plural(live, "live task")})'
        return plural(waiters, self.case.unit) + more

    def first_scan(self) -> str:
        """The word of the transition's first walk or stop."""
        return self.case.events[self.scans[0] - 1].word if self.scans else 'check'


def page_of(case: Case, naming: Naming, transition: Transition, question: Question) -> Page:
    """The page of a transition."""
    return Author(case, naming, transition, question).page()
