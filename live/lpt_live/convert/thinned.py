"""A thinned trace, with the decisions and the names renumbered to match."""
import bisect
from typing import Any, Dict, List, Tuple

from ..expectation import Decision, Expectation, KernelLeg
from ..names import Names
from ..thin import thin
from ..times import renumbered


class Renumber:
    """The new numbers of events: that of an event that was left out is its forerunner's."""

    def __init__(self, kept: List[int]) -> None:
        self.kept = kept
        self.there = set(kept)

    def now(self, number: int) -> int:
        """How many events up to this one are still there."""
        return bisect.bisect_right(self.kept, number)

    def leg(self, leg: KernelLeg) -> KernelLeg:
        """A leg in new numbers."""
        return leg._replace(opened=self.now(leg.opened), begins=None if leg.begins is None else self.now(leg.begins),
                            complete=None if leg.complete is None else self.now(leg.complete),
                            shown=None if leg.shown is None else self.now(leg.shown))

    def decision(self, decision: Decision) -> Decision:
        """A decision in new numbers."""
        return decision._replace(event=self.now(decision.event), after=self.now(decision.after))

    def stays(self, decision: Decision) -> bool:
        """Whether a decision is still about an event: updates in vain are gone, and so are checks that were left out."""
        return decision.word != 'idle-update' and (decision.word != 'stays' or decision.event in self.there)


def thinned(trace: List[str], decisions: Expectation, names: Names) -> Tuple[List[str], Expectation, Names]:
    """The same with the events that matter alone."""
    text, kept = thin('\n'.join(trace) + '\n')
    numbers = Renumber(kept)
    found = Expectation(decisions.kernel)
    found.tasks = decisions.tasks
    found.legs = [numbers.leg(leg) for leg in decisions.legs]
    found.decisions = [numbers.decision(decision) for decision in decisions.decisions if numbers.stays(decision)]
    return text.splitlines(), found, Names(renamed(names, numbers, found, len(trace) - text.count('\n')))


def renamed(names: Names, numbers: Renumber, found: Expectation, left_out: int) -> Dict[str, Any]:
    """The names in new numbers."""
    data, prologue = names.data, numbers.now(names.prologue)
    says = [decision.line() for decision in found.decisions if decision.word not in ('shown', 'ran', 'born')]
    return {**data, 'prologue': prologue, 'times': renumbered(names, numbers.kept, prologue),
            'stacks': {task: [[numbers.now(row[0]), *row[1:]] for row in rows] for task, rows in data['stacks'].items()},
            'kernel_legs': [leg.line().split() for leg in found.legs], 'kernel_says': says,
            'log': {**data['log'], 'events left out': left_out}}
