"""Who waits at a moment, and why: the engine's certificates there, in words."""
from typing import Dict, List, NamedTuple, Optional, Sequence, Tuple

from .. import report
from ..report import Certificate, Reason
from ..rules import CHECKS, MODE_IN_WORDS
from ..tasks import Frame, Tasks, tasks_after
from ..trace import OWN_CHECK
from .advice import advice, goes_over
from .case import MOST_EVENTS, Case, Transition, level
from .kernel import Kernel
from .naming import Naming, RecordedNaming, plural
from .outcomes import Outcomes

FEW = 12            # if more wait, those that no check has looked at are only named
MOST = 40           # of more than these the names do


class Waiter(NamedTuple):
    """A group that waits: what the page says of it; `version` says which one of the function it is in."""
    group: int
    who: str
    birth: str
    place: str
    function: str
    version: str
    since: str
    refused: str
    earlier: str
    stack: List[str]
    now: str
    goes_over: str
    help: str
    outcome: str


class Waiters(NamedTuple):
    """The groups that wait: how many, those of which all is told, the names of further ones and of those that no check looked at."""
    total: int
    told: List[Waiter]
    further: List[str]
    unseen: List[str]


def own_reasons(certificate: Certificate) -> Tuple[List[Reason], Optional[Reason]]:
    """The reasons of the group itself, and the birth before them; what is before that is its parent's."""
    births = [place for place, reason in enumerate(certificate.reasons) if reason.word == 'born']
    if not births:
        return certificate.reasons, None
    return certificate.reasons[births[-1] + 1:], certificate.reasons[births[-1]]


def latest(reasons: Sequence[Reason]) -> int:
    """How many reasons at the end say one thing: a hold, or the checks in a row that found it busy."""
    if not reasons or reasons[-1].word == 'hold':
        return len(reasons[-1:])
    return next((count for count, reason in enumerate(reversed(reasons)) if reason.word != 'busy'), len(reasons))


class Moment:
    """The waiting groups of a transition after an event."""

    def __init__(self, case: Case, naming: Naming, kernel: Optional[Kernel], transition: Transition, at: int) -> None:
        self.case, self.naming, self.kernel, self.at, self.opened = case, naming, kernel, at, transition.opened
        patching = level(transition.leg.target) == transition.patch
        self.version = 'which the patch replaces' if patching else 'in its patched version'
        self.tasks: Tasks = tasks_after(case.trace, at, case.refused)
        self.certificates: List[Certificate] = self.waiting_after([])
        self.outcomes = Outcomes(case, naming, kernel, transition, at)
        self.ahead: Dict[int, Reason] = {}      # what a scan right now would say of groups that none has looked at yet
        if at < MOST_EVENTS and any(not own_reasons(one)[0] for one in self.certificates):
            scan = 'stop' if case.model == 'all-at-once' else 'walk'
            self.ahead = {one.group: one.reasons[-1] for one in self.waiting_after([scan]) if own_reasons(one)[0]}

    def waiting_after(self, more: Sequence[str]) -> List[Certificate]:
        """The certificates of those that wait after the event, and after further ones."""
        case = self.case
        is_whole = self.at == len(case.events) and not more
        legs = case.report.legs if is_whole else report.run(case.model, case.trace.cut(self.at, more)).legs
        return [] if not legs or legs[-1].complete else legs[-1].certificates

    def waiters(self) -> List[Waiter]:
        """All groups: those held by a frame first."""
        return [self.waiter(one) for one in sorted(self.certificates, key=self.rank)]

    def listed(self) -> Waiters:
        """The same as a page lists them: of many, some are only named."""
        found = sorted(self.certificates, key=self.rank)
        seen = [one for one in found if own_reasons(one)[0] or len(found) <= FEW] or found[:FEW]
        unseen = found[len(seen):]
        return Waiters(len(found), [self.waiter(one) for one in seen[:MOST]], self.names(seen[MOST:]), self.names(unseen))

    def rank(self, certificate: Certificate) -> Tuple[bool, bool, int]:
        """Its place in the list."""
        own, _ = own_reasons(certificate)
        newest = own[-1] if own else self.ahead.get(certificate.group)
        held = newest is not None and newest.word == 'hold'
        return (not own, not held, certificate.group) if len(self.certificates) > FEW else (not held, not own, certificate.group)

    def names(self, certificates: Sequence[Certificate]) -> List[str]:
        """Groups that are only named."""
        return [self.who(one.group, self.members(one.group)) for one in certificates]

    def members(self, group: int) -> List[int]:
        """The live tasks of a group."""
        if self.case.model == 'process-group':
            return [number for number, task in self.tasks.live.items() if task.group == group]
        return list(self.tasks.live) if self.case.model == 'all-at-once' else [group]

    def waiter(self, certificate: Certificate) -> Waiter:
        """One group."""
        own, born = own_reasons(certificate)
        members = self.members(certificate.group)
        newest = own[-1] if own else self.ahead.get(certificate.group)
        about = newest.task if newest and newest.task in self.tasks.live else members[0]
        task = self.tasks.live[about]
        frame = next((frame for frame in task.frames if newest and newest.word == 'hold' and frame.serial == newest.serial), None)
        (stack, state), function, recent = self.stack(about, frame), self.function(newest), latest(own)
        earlier = self.refusals(own[:-recent]) if recent else ''
        unseen = f'no check has looked at it since {"its birth" if born else "the opening"}'
        return Waiter(
            certificate.group, self.who(certificate.group, members), self.birth(born) if born else '',
            self.place(newest, frame, bool(own), about, members), function, self.version,
            self.naming.moment(newest.serial) if newest and function else '', self.refusals(own[-recent:]) if recent else unseen,
            f'before that, {earlier}' if earlier else '', stack if frame or not function else [], MODE_IN_WORDS[task.mode],
            goes_over(self.case.model, self.naming.kind(about), newest, frame, function) + self.own_check(about),
            advice(self.naming, newest, frame, function, stack, state, about, task.mode),
            self.outcomes.of(certificate.group, members, born.last if born else self.opened))

    # -- its parts
    def who(self, group: int, members: Sequence[int]) -> str:
        """A group by its task, or by its number and its tasks."""
        if len(members) == 1:
            return self.naming.who(members[0])
        if self.case.model == 'all-at-once':
            return f'all {plural(len(members), "task")}'
        return f'group {group} (tasks {", ".join(map(str, members[:8]))}{" .." if len(members) > 8 else ""})'

    def birth(self, reason: Reason) -> str:
        """Where a group comes from that was born waiting."""
        return f'born {self.naming.at(reason.last)} of {self.naming.who(reason.task)}, which was waiting itself'

    def function(self, newest: Optional[Reason]) -> str:
        """The function of the frame that is blamed."""
        return self.case.events[newest.serial - 1].words[2] if newest and newest.word == 'hold' else ''

    def place(self, newest: Optional[Reason], frame: Optional[Frame], looked: bool, about: int, members: Sequence[int]) -> str:
        """Where it is, or was as a check last looked."""
        subject = f'{self.naming.who(about)} ' if len(members) > 1 and newest else ''
        if newest and newest.word == 'hold':
            return f'{subject}{"is" if frame else "was"} in {self.function(newest)}'
        return f'{subject}was on a CPU at its last check' if looked else f'{subject}waits'

    def refusals(self, reasons: Sequence[Reason]) -> str:
        """At which checks it was refused, and when the last was."""
        seen = sorted({number for reason in reasons for number in self.checks(reason)})
        if not seen:
            return ''
        busy = all(reason.word == 'busy' for reason in reasons)
        return self.naming.refused_at(self.case.count_looks(seen), seen, busy)

    def checks(self, reason: Reason) -> List[int]:
        """The scans and own checks at which a reason refused it, reconstructed ones left out."""
        return self.case.looks(reason.group, reason.first, reason.last)

    def stack(self, number: int, frame: Optional[Frame]) -> Tuple[List[str], str]:
        """The stack, the innermost first, and the task's state: by /proc where there is a recording, else by the trace's calls."""
        if isinstance(self.naming, RecordedNaming):
            return self.naming.stack(number, self.at, frame.serial if frame else None)
        return [f'{one.symbol} ({self.naming.time(one.serial)})' for one in reversed(self.tasks.live[number].frames)], ''

    def own_check(self, number: int) -> str:
        """A further chance that tasks of later kernels have, but for idle tasks."""
        has_it = self.case.trace.knows(OWN_CHECK) and OWN_CHECK in CHECKS[self.case.model] and self.naming.kind(number) != 'idle'
        return ', or at its own check at cond_resched' if has_it else ''

