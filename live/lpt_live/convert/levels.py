"""Which patch stands at which height, and what no trace can say about patches."""
from typing import Any, Counter, Dict, List, Optional, Tuple

from ..errors import Refused
from .record import UNDEFINED, Record


class Levels:
    """`order`: the patches that were on at the start, the lowest first; `of_patch`: the height of each, from 1."""

    def __init__(self, before: Dict[str, Any], load_order: List[str], prior: Optional[Tuple[str, int]]) -> None:
        known = [patch for patch in load_order if patch in before] or list(before)
        self.order = [patch for patch in known if before[patch]['enabled'] == '1' or before[patch]['transition'] == '1']
        self.prior = prior
        for patch, shown in before.items():
            if str(shown.get('replace', '0')) == '1' and patch in self.order:
                raise Refused(f'{patch} replaces all patches below it at once (atomic replace): no trace can say this')
        if prior and prior[0] != self.order[-1]:
            raise Refused(f'{prior[0]} is in transition below another patch: no trace can say this')
        self.of_patch = {patch: height for height, patch in enumerate(self.order, 1)}

    @property
    def top(self) -> int:
        """The greatest height; 1 where there is none."""
        return max(self.of_patch.values(), default=1)

    @property
    def stacked(self) -> bool:
        """Whether there are several patches, which `lptrace 1` can't say."""
        return self.top > 1

    def at(self, height: int) -> List[str]:
        """The patch at a height, if there is one."""
        return [patch for patch, level in self.of_patch.items() if level == height]

    def in_order(self) -> List[str]:
        """The patches, the lowest first."""
        return sorted(self.of_patch, key=lambda patch: self.of_patch[patch])

    def follow(self, records: List[Record]) -> None:
        """Gives each patch that is loaded its height.  Refused where a trace can't say what happened: it has its
        patches on one another, and only the last one on can go."""
        stack = list(self.order)
        for record in records:
            if record.kind == 'gone' and record.module in stack:
                stack.remove(record.module)
            elif record.kind == 'force':
                raise Refused('the transition was forced: no trace can say this')
            elif record.kind == 'init':
                self.prepare(record, stack)

    def prepare(self, record: Record, stack: List[str]) -> None:
        """A transition of a patch is prepared."""
        patch = record.module
        if record.flag:
            raise Refused(f'{patch} replaces all patches below it at once (atomic replace): no trace can say this')
        if record.state == 0:
            if not stack or stack[-1] != patch:
                raise Refused(f'{patch} is disabled below another patch: no trace can say this')
            return
        if patch in stack:
            stack.remove(patch)
        stack.append(patch)
        if self.of_patch.setdefault(patch, len(stack)) != len(stack) or self.at(len(stack)) != [patch]:
            raise Refused(f'{patch} comes at another height than it or another patch had before: no trace can say this')


def mark_gone(records: List[Record], prior: Optional[Tuple[str, int]]) -> List[Record]:
    """The records, with a record `gone` after the completion of each unpatching: the patch is off the stack from there."""
    out: List[Record] = []
    patch, target = prior or ('', UNDEFINED)
    for record in records:
        out.append(record)
        if record.kind == 'init':
            patch, target = record.module, record.state
        elif record.kind == 'reverse' and patch:
            target = 1 - target
        elif record.kind == 'complete' and patch:
            if target == 0:
                out.append(Record('gone', record.task, record.place, record.cpu, module=patch))
            patch = ''
    return out


def without_failed_forks(records: List[Record], log: Counter[str]) -> List[Record]:
    """The records without the copies whose fork failed after them (a fatal signal): there is no child."""
    forked = {record.about for record in records if record.kind == 'forked'}
    kept = [record for record in records if record.kind != 'copy' or record.about in forked]
    if len(kept) != len(records):
        log['failed forks'] = len(records) - len(kept)
    return kept
