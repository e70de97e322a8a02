"""Seeded random traces, mostly of events that are accepted: for laws that must hold of any trace."""
import random
from typing import Dict, List

import support  # noqa: F401  (puts the package on the path)

from lpt_live.tasks import ASLEEP, USER, Task, Tasks
from lpt_live.trace import CONTROLS, Event, Trace, parse

NAMES = ['a', 'b', 'c', 'd', 'e']
NUMBERS = [1, 2, 3, 7, 40, 65535, 900]


class Generator:
    """One trace: its weights are drawn anew for each, so that traces differ in character."""

    def __init__(self, seed: int) -> None:
        self.random = random.Random(seed)
        self.has_own_check = seed % 3 == 0      # the word `resched`, of `lptrace 3` alone
        self.weights: Dict[str, float] = {word: self.random.choice([0.3, 1, 3]) for word in (
            'call', 'ret', 'sleep', 'wake', 'enter', 'exit', 'idle', 'own', 'share', 'die', 'walk', 'stop', *CONTROLS, 'resched')}
        rare = self.random.choice([3, 12, 50])
        for word in ('walk', 'stop'):
            self.weights[word] /= rare
        for word in ('own', 'share', 'die'):
            self.weights[word] /= 6
        self.trace = parse('\n'.join(self.header()) + '\n')
        self.tasks = Tasks(self.trace)

    def header(self) -> List[str]:
        """Symbols, one to three patches, boot tasks."""
        height = self.random.choice([1, 1, 2, 3])
        version = 3 if self.has_own_check else 1 if height == 1 else 2
        lines = [f'lptrace {version}'] + [f'sym {name}' for name in NAMES]
        for level in range(1, height + 1):
            for name in self.random.sample(NAMES, self.random.choice([1, 2, 3])):
                lines.append(f'patch {name}' if version == 1 else f'patch {level} {name}')
        for number in self.random.sample(NUMBERS, self.random.choice([1, 2, 4])):
            lines.append(f'boot {number} {self.random.choice(["normal", "normal", "normal", "idle"])}')
        return lines

    def fitting(self, task: Task) -> List[str]:
        """The words of events that a task may do now."""
        if task.mode == USER:
            return ['enter']
        if task.mode == ASLEEP:
            return ['wake']
        words = ['call', 'sleep', 'ret' if task.frames else 'idle' if task.kind == 'idle' else 'exit']
        if task.kind == 'normal':
            words += ['own', 'share'] + ([] if task.frames else ['die']) + (['resched'] if self.has_own_check else [])
        return words

    def text(self) -> str:
        """The next event."""
        scans = ['walk', 'stop', *CONTROLS]
        if not self.tasks.live or self.random.random() < sum(self.weights[word] for word in scans) / 100:
            return self.pick(scans)
        number = self.random.choice(sorted(self.tasks.live))
        if self.random.random() < 0.03:         # an event that may be refused
            words = ['ret', 'sleep', 'wake', 'enter', 'exit', 'idle', 'die'] + (['resched'] if self.has_own_check else [])
            return self.random.choice([f'{word} {number}' for word in words]
                                      + [f'enter {self.random.randrange(1, 50)}', f'fork {number} {self.random.choice(NUMBERS)} own'])
        word = self.pick(self.fitting(self.tasks.live[number]))
        if word == 'call':
            return f'call {number} {self.random.choice(NAMES)}'
        if word in ('own', 'share'):
            return f'fork {number} {self.random.choice([n for n in range(1000, 2000) if n not in self.tasks.used])} {word}'
        return f'{word} {number}'

    def pick(self, words: List[str]) -> str:
        """One of these, by its weight."""
        return self.random.choices(words, [self.weights[word] for word in words])[0]

    def make(self, length: int) -> str:
        """The text of a trace of so many events."""
        for number in range(1, length + 1):
            event = Event(number, 0, self.text().split())
            if not self.tasks.refusal(event):
                self.tasks.step(event)
            self.trace.events.append(event)
        return self.trace.text()


def random_trace(seed: int, length: int = 300) -> str:
    """The trace of a seed."""
    return Generator(seed).make(length)


def events_of(trace: Trace) -> List[str]:
    """The texts of the events."""
    return [event.text for event in trace.events]
