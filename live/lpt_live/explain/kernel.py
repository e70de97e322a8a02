"""What the kernel itself decided in a recording, held beside the engine's decisions of the same transition."""
from typing import Dict, List, Optional, Set, Tuple

from .. import expectation
from ..expectation import Decision, KernelLeg
from .case import Case, Transition
from .naming import RecordedNaming, plural

HOW = {'exit': 'as it left the kernel', 'idle': 'at its idle point', 'walk': 'at a walk',
       'resched': 'at its own check, cond_resched'}


class Kernel:
    """The kernel's own decisions, from the names of a recording."""

    def __init__(self, case: Case, naming: RecordedNaming) -> None:
        self.case, self.naming, self.names = case, naming, naming.names
        self.decisions: List[Decision] = [expectation.decision(line.split()) for line in self.names['kernel_says']]
        self.moves: Dict[Tuple[int, int], str] = {
            (told.event, told.task): told.rest[0] for told in self.decisions if told.word == 'over' and told.rest[0] != 'told'}
        parsed = expectation.Expectation('')
        for words in self.names['kernel_legs']:
            parsed.take(list(words))
        self.legs: Dict[int, KernelLeg] = {leg.opened: leg for leg in parsed.legs}

    def how(self, event: int, task: int) -> Optional[str]:
        """How the kernel moved a task, if it did so there."""
        return HOW.get(self.moves.get((event, task), ''))

    def completion(self, transition: Transition) -> List[str]:
        """When the kernel noticed that the transition was complete: at a walk alone, so often later."""
        leg, complete = self.legs.get(transition.opened), transition.leg.complete
        if not complete or leg is None or leg.complete is None or leg.complete <= complete:
            return []
        later = self.naming.span(complete, leg.complete)
        return [f'The kernel noticed at its next walk, {self.naming.time(leg.complete)} ({later} later); until then a second patch '
                'gets EBUSY.']

    def agreement(self, transition: Transition) -> List[str]:
        """Whether the kernel's moves in the transition are the engine's."""
        first, last = max(transition.opened, self.case.prologue), transition.end
        kernel: Set[Tuple[int, int]] = {move for move in self.moves if first < move[0] <= last}
        switched = self.case.report.switched().items()
        engine = {(event, task) for event, tasks in switched if first < event <= last for task in tasks}
        lines = []
        if kernel == engine:
            lines.append(f'The kernel moved {plural(len(kernel), "task")} in it, the engine the same at the same events.')
        else:
            apart = sorted(kernel ^ engine)
            lines.append(f'CAUTION: the kernel and the engine differ in {plural(len(apart), "move")}: ' + '; '.join(
                f'{self.naming.who(task)} at event {event}, by the {"kernel" if (event, task) in kernel else "engine"} alone'
                for event, task in apart[:4]) + (' ..' if len(apart) > 4 else '') + ' (lpt-live verify tells all)')
        return lines + self.own_checks(kernel) + self.refusals(first, last)

    def own_checks(self, moves: Set[Tuple[int, int]]) -> List[str]:
        """How many of the moves were at cond_resched."""
        count = sum(self.moves[move] == 'resched' for move in moves)
        if not count:
            return []
        return [f'{count} of these moves {"was" if count == 1 else "were"} at the task\'s own check at cond_resched (Linux 6.4 and '
                'later).']

    def refusals(self, first: int, last: int) -> List[str]:
        """Controls that the kernel refused, and stacks that it called unreliable."""
        told = [one for one in self.decisions if first < one.event <= last]
        controls = [one for one in told if one.word == 'refused']
        lines = []
        if controls:
            moments = ', '.join(self.naming.at(one.event) for one in controls[:4])
            same = all(one.event in self.case.refused for one in controls)
            word = 'as the engine does' if same else 'which the engine would take'
            lines.append(f'The kernel refused {plural(len(controls), "write or load", "writes or loads")} meanwhile, {word}: '
                         f'{moments}{" .." if len(controls) > 4 else ""}.')
        unreliable: Dict[int, int] = {}
        for one in told:
            if one.word == 'stays' and one.rest[0] == 'unreliable':
                unreliable[one.task] = unreliable.get(one.task, 0) + 1
        return lines + [f'The kernel found the stack of {self.naming.who(task)} unreliable {plural(count, "time")}.'
                        for task, count in unreliable.items()]

    def messages(self, transition: Transition) -> List[str]:
        """What the kernel's log says of its signals to those who wait."""
        last = self.naming.clock.when(transition.end) or (self.naming.clock.seconds[-1] if self.naming.clock.seconds else 0.0)
        return [f'{self.naming.clock.of_day(seconds)} the kernel sent its signal without content to those who wait '
                f'(its log: {text.split(": ", 1)[-1]})'
                for seconds, text in self.names.get('messages', [])
                if (self.naming.begun or 0.0) + 0.2 < seconds <= last + 0.1 and 'signaling' in text]
