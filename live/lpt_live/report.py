"""A report text (`lpreport 1`, `2` or `3`, of `lpt run MODEL`): replies, legs, certificates with their lines."""
from typing import Dict, List, NamedTuple, Optional, Tuple

from .errors import NoEngine
from .lpt import ask
from .trace import VERSIONS


class Reply(NamedTuple):
    """The reply to an event: `word` is done, ran, over or refused; `value` the level that ran, or E1 to E12."""
    event: int
    word: str
    value: str
    groups: Tuple[int, ...]
    complete: bool


class Reason(NamedTuple):
    """A line of a certificate: hold G T S F E, busy G T A, born G P A."""
    word: str
    numbers: Tuple[int, ...]

    @property
    def group(self) -> int:
        """The group that it is about."""
        return self.numbers[0]

    @property
    def task(self) -> int:
        """The member that was blamed; of `born` the parent."""
        return self.numbers[1]

    @property
    def serial(self) -> int:
        """Of a hold: the event that called the blamed frame."""
        return self.numbers[2]

    @property
    def first(self) -> int:
        """Of a hold: the check from which it counts.  Of the others: their event."""
        return self.numbers[3] if self.word == 'hold' else self.numbers[2]

    @property
    def last(self) -> int:
        """Of a hold: the last check that it answers.  Of the others: their event."""
        return self.numbers[4] if self.word == 'hold' else self.numbers[2]


class Certificate(NamedTuple):
    """Why a group waited: `claim` is waiting or floor, `upto` the event after which it still waits."""
    claim: str
    leg: int
    group: int
    upto: int
    reasons: List[Reason]

    def lines(self) -> List[str]:
        """Its lines as `lpt check` takes them, after the line `lpcert 1`."""
        return [f'{self.claim} {self.leg} {self.group} {self.upto}'] + [
            ' '.join([reason.word, *map(str, reason.numbers)]) for reason in self.reasons]


class Leg(NamedTuple):
    """A transition: the event that opened it, its target's word, its completion or how many groups wait."""
    opened: int
    target: str
    complete: Optional[int]
    waiting: int
    certificates: List[Certificate]


class Report:
    """`model`, `version`, `replies` (that of event N is `reply(N)`), `legs`, `stays`, `mixed`."""

    def __init__(self, version: int, model: str) -> None:
        self.version = version
        self.model = model
        self.replies: List[Reply] = []
        self.legs: List[Leg] = []
        self.stays = self.mixed = 0

    def reply(self, event: int) -> Reply:
        """The reply to an event, from 1."""
        return self.replies[event - 1]

    def refused(self) -> Dict[int, str]:
        """The refused events and why: E1 to E12."""
        return {reply.event: reply.value for reply in self.replies if reply.word == 'refused'}

    def switched(self) -> Dict[int, Tuple[int, ...]]:
        """The events that switched groups, and which."""
        return {reply.event: reply.groups for reply in self.replies if reply.word == 'over'}

    def take(self, words: List[str]) -> None:
        """Takes the words of a line after the two first."""
        if words[0].isdigit():
            complete = words[-1] == 'complete'
            rest = words[2:-1] if complete else words[2:]
            over = words[1] == 'over'
            self.replies.append(Reply(int(words[0]), words[1], '' if over or not rest else rest[0],
                                      tuple(map(int, rest)) if over else (), complete))
        elif words[0] == 'leg':
            word, count = words[-2:]
            self.legs.append(Leg(int(words[1]), words[-3], int(count) if word == 'complete' else None,
                                 int(count) if word == 'waiting' else 0, []))
        elif words[0] in ('waiting', 'floor'):
            leg, group, upto = map(int, words[1:])
            self.legs[-1].certificates.append(Certificate(words[0], leg, group, upto, []))
        elif words[0] in ('hold', 'busy', 'born'):
            self.legs[-1].certificates[-1].reasons.append(Reason(words[0], tuple(map(int, words[1:]))))
        elif words[0] == 'stays':
            self.stays, self.mixed = int(words[1]), int(words[3])


def parse(text: str) -> Report:
    """The report of a text; NoEngine where it is none, since only the engine's program writes one."""
    lines = text.splitlines()
    if len(lines) < 2 or lines[0] not in [f'lpreport {version}' for version in VERSIONS] or not lines[1].startswith('model '):
        raise NoEngine('the answer of lpt is no report')
    report = Report(int(lines[0][-1]), lines[1].split()[1])
    for line in lines[2:]:
        report.take(line.split())
    return report


def run(model: str, trace: str) -> Report:
    """The report of `lpt run MODEL` on the text of a trace."""
    return parse(ask(['run', model], trace))
