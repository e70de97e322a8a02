"""Whether the certificates of a report hold, by what each line claims: docs/formats.md, "Certificates".

Nothing is said of their form beyond that: each check that refused the group is answered by a line, and each line is true.
"""

from typing import Dict, Iterator, List, NamedTuple, Optional, Tuple

from own_checks import Blame, Leg, Outcome


class Certificate(NamedTuple):
    """The claim's words and those of its reasons."""

    claim: List[str]
    reasons: List[List[str]]


class Section(NamedTuple):
    """A group's part of the way: its events from after `first` up to `last`."""

    group: int
    first: int
    last: int


def without(lines: List[str]) -> Tuple[List[str], Dict[int, List[Certificate]]]:
    """A report's lines without its certificates, and these by the leg after whose line they stand."""
    rest: List[str] = []
    found: Dict[int, List[Certificate]] = {}
    leg = 0
    for line in lines:
        words = line.split(" ")
        if words[0] in ("waiting", "floor"):
            found.setdefault(leg, []).append(Certificate(words, []))
        elif words[0] in ("hold", "busy", "born"):
            found[leg][-1].reasons.append(words)
        else:
            rest.append(line)
            leg = int(words[1]) if words[0] == "leg" else leg
    return rest, found


def claims(leg: Leg) -> List[List[str]]:
    """The claims that the report of a leg has."""
    if leg.complete is None:
        return [["waiting", str(leg.opened), str(group), str(leg.last)] for group in leg.waiting]
    if leg.complete == leg.opened:
        return []
    return [["floor", str(leg.opened), str(leg.least), str(leg.complete - 1)]]


def sections(outcome: Outcome, certificate: Certificate) -> List[Section]:
    """The groups on the way to the one that waits: each birth leads from the parent's group to the child's."""
    opened, group, upto = (int(word) for word in certificate.claim[1:])
    births = [(int(words[1]), int(words[3])) for words in certificate.reasons if words[0] == "born"]
    if not births:
        return [Section(group, opened, upto)]
    ends = [at for _, at in births[1:]] + [upto]
    _, _, first = outcome.births.get(births[0][1], (0, 0, 0))
    return [Section(first, opened, births[0][1])] + [Section(child, at, end) for (child, at), end in zip(births, ends)]


def faults(outcome: Outcome, certificate: Certificate) -> Iterator[str]:
    """What a certificate claims that isn't so, or leaves unanswered."""
    parts = sections(outcome, certificate)
    if parts[-1].group != int(certificate.claim[2]):
        yield f"{' '.join(certificate.claim)}: its lines lead to group {parts[-1].group}"
    for words in certificate.reasons:
        yield from line_faults(outcome, parts, words)
    for part in parts:
        for event in range(part.first + 1, part.last + 1):
            if part.group in outcome.looks[event] and not answered(certificate, part.group, event):
                yield f"event {event} looks at group {part.group}, and no line says why it refused it"


def line_faults(outcome: Outcome, parts: List[Section], words: List[str]) -> Iterator[str]:
    """What is wrong with a line: a birth that isn't one, a check outside of the group's part of the way, another blame."""
    text, numbers = " ".join(words), [int(word) for word in words[1:]]
    if words[0] == "born":
        if outcome.births.get(numbers[2], ())[:2] != (numbers[0], numbers[1]):
            yield f"{text}: no such birth"
        return
    check = numbers[3 if words[0] == "hold" else 2]
    if not any(part.group == numbers[0] and part.first < check <= part.last for part in parts):
        yield f"{text}: event {check} isn't in the group's part of the way"
    yield from (hold_faults if words[0] == "hold" else busy_faults)(outcome, numbers, text)


def answered(certificate: Certificate, group: int, event: int) -> bool:
    """Whether a line is about a check of a group."""
    for words in certificate.reasons:
        numbers = [int(number) for number in words[1:]]
        holds = words[0] == "hold" and numbers[3] <= event <= numbers[4]
        if numbers[0] == group and (holds or words[0] == "busy" and numbers[2] == event):
            return True
    return False


def blame_at(outcome: Outcome, group: int, task: int, event: int) -> Optional[Blame]:
    """The blame of a task at a check of its group."""
    return outcome.looks[event].get(group, {}).get(task) if event < len(outcome.looks) else None


def hold_faults(outcome: Outcome, numbers: List[int], text: str) -> Iterator[str]:
    """Of `hold G T S F E`: at F the task is blamed by this frame, which stays up to E."""
    group, task, serial, first, last = numbers
    if blame_at(outcome, group, task, first) != Blame("frame", serial):
        yield f"{text}: at event {first} it isn't blamed by this frame"
    gone = [event for event in range(first, last + 1) if serial not in outcome.serials[event].get(task, [])]
    if gone:
        yield f"{text}: the frame isn't on the stack after event {gone[0]}"


def busy_faults(outcome: Outcome, numbers: List[int], text: str) -> Iterator[str]:
    """Of `busy G T A`: at the walk A the task is busy. At its own check it never is."""
    group, task, event = numbers
    if outcome.trace.events[event - 1] != ["walk"]:
        yield f"{text}: that event is no walk"
    if blame_at(outcome, group, task, event) != Blame("busy", 0):
        yield f"{text}: it isn't busy there"
