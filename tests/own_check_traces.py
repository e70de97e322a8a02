"""Seeded random traces of `lptrace 3`, with many checks that tasks make of themselves."""

import random
from typing import Dict, List

from own_checks import ASLEEP, KERNEL, USER, Trace

SYMBOLS = ["a", "b", "c", "d"]


class Teller:
    """Tells one trace. It follows modes and stacks, so that most events are accepted."""

    def __init__(self, seed: int) -> None:
        self.random = random.Random(seed)
        chance = self.random.choice
        self.patches = [self.random.sample(SYMBOLS, chance([1, 2, 3])) for _ in range(chance([1, 1, 2, 3]))]
        numbers = self.random.sample([1, 2, 3, 9, 40, 900, 65535], chance([1, 2, 3, 5]))
        self.boots = {number: chance(["normal"] * 4 + ["idle"]) for number in numbers}
        self.modes: Dict[int, str] = {number: USER if kind == "normal" else KERNEL for number, kind in self.boots.items()}
        self.stacks: Dict[int, List[str]] = {number: [] for number in self.boots}
        self.idle = {number for number, kind in self.boots.items() if kind == "idle"}
        self.children = 1000
        self.weights = {word: chance([1, 2, 6]) for word in ("call", "ret", "sleep", "exit", "fork", "die", "resched", "idle")}
        self.scans = chance([0.02, 0.05, 0.1])

    def pick(self, words: List[str]) -> str:
        return self.random.choices(words, [self.weights.get(word, 2) for word in words])[0]

    def may(self, task: int) -> List[str]:
        """The words that a task may say now."""
        if self.modes[task] != KERNEL:
            return ["enter" if self.modes[task] == USER else "wake"]
        words = ["call", "sleep", *(["ret"] if self.stacks[task] else [])]
        if task in self.idle:
            return words + ([] if self.stacks[task] else ["idle"])
        return words + ["resched", "resched", "fork"] + ([] if self.stacks[task] else ["exit", "die"])

    def event(self) -> List[str]:
        """The next event."""
        if not self.modes or self.random.random() < self.scans:
            return [self.random.choice(["walk", "walk", "stop", "enable", "enable", "disable", "reverse"])]
        task = self.random.choice(sorted(self.modes))
        if self.random.random() < 0.05:
            other = self.random.choice([task, task, 1, 7, self.children])
            return [self.random.choice(["resched", "resched", "resched", "ret", "exit", "idle", "wake", "die"]), str(other)]
        word = self.pick(self.may(task))
        if word == "call":
            return [word, str(task), self.random.choice(SYMBOLS)]
        if word == "fork":
            return [word, str(task), str(self.children + 1), self.random.choice(["own", "share", "share"])]
        return [word, str(task)]

    def follow(self, event: List[str]) -> None:
        """Takes an event that may be refused: then its task is left as it was."""
        if len(event) == 1 or int(event[1]) not in self.modes or event[0] not in self.may(int(event[1])):
            return
        word, task = event[0], int(event[1])
        if word == "call":
            self.stacks[task].append(event[2])
        elif word == "ret":
            self.stacks[task].pop()
        elif word == "fork":
            self.children += 1
            self.modes[self.children], self.stacks[self.children] = KERNEL, []
        elif word == "die":
            del self.modes[task], self.stacks[task]
        else:
            self.modes[task] = {"sleep": ASLEEP, "wake": KERNEL, "enter": KERNEL, "exit": USER}.get(word, self.modes[task])

    def tell(self, length: int) -> Trace:
        """A trace of so many events."""
        events = []
        for _ in range(length):
            events.append(self.event())
            self.follow(events[-1])
        return Trace(SYMBOLS, self.patches, self.boots, events)


def random_trace(seed: int) -> Trace:
    """The trace of a seed."""
    teller = Teller(seed)
    return teller.tell(teller.random.choice([20, 60, 120, 200]))
