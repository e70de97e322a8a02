"""Holds each decision of the kernel against the engine's, under hybrid.

FILE is a recording, or a trace BASE.lptrace with the kernel's decisions beside it, BASE.expect.  Told are, with the events
and lines of the trace: tasks that the kernel switched too early (and the stale frame) or too late, another version that
ran, a sample of patch_state that can't have been, a completion before the engine's, and what else differs.

Status 0 where all agree, 1 where not, 3 for a bad input.  The kernel may complete a transition later than the engine, which
does at once: it completes at a walk alone.  Until then it accepts a reversal.
"""
import argparse
import json
import os
from typing import Dict, List, NamedTuple, Optional

from .. import expectation, files, lpt, names, recording, report, trace
from ..convert import converted
from ..convert.output import TooLong
from ..errors import DIFFERS, DONE, Refused
from ..expectation import Expectation
from ..names import Names
from .case import Case
from .differences import Difference
from .judge import differences

COUNTED = {'over': 'switches', 'stays': 'refusals', 'ran': 'versions', 'shown': 'samples', 'born': 'births',
           'refused': 'refused controls'}
FROM_BEFORE = 'switches from before'
ONE = {'switches': 'switch', 'refusals': 'refusal', 'versions': 'version', 'samples': 'sample', 'births': 'birth',
       'refused controls': 'refused control', 'transitions': 'transition', 'decisions': 'decision'}
MOST_TOLD = 40


class Source(NamedTuple):
    """What is held against the engine: a trace's text, the kernel's decisions, names if there are some."""
    text: str
    decisions: Expectation
    names: Optional[Names]
    which: str


def of_recording(path: str) -> Source:
    """The whole trace of a recording, since thinning closes up some moments; thinned where it is too long for `lpt`."""
    source = recording.read(path)
    try:
        return Source(*converted(source, whole=True), 'of the whole trace (lpt-live convert --whole)')
    except TooLong:
        return Source(*converted(source), 'of the thinned trace (lpt-live convert)')


def of_trace(path: str) -> Source:
    """A trace with its decisions beside it."""
    base = path[:-len('.lptrace')] if path.endswith('.lptrace') else path
    if base == path and os.path.exists(path):
        raise Refused(f'{path}: neither a recording nor a trace BASE.lptrace')
    text = files.read_text(base + '.lptrace')
    if not os.path.exists(base + '.expect'):
        raise Refused(f'{base}.expect isn\'t there, and without the kernel\'s decisions there is nothing to hold against the engine')
    try:
        decisions = expectation.parse(files.read_text(base + '.expect'))
    except Refused as fault:
        raise Refused(f'{base}.expect: {fault}') from None
    known = names.parse(files.read_text(base + '.names')) if os.path.exists(base + '.names') else None
    return Source(text, decisions, known, f'of {base}.lptrace')


def case_of(path: str, source: Source) -> Case:
    """The source with the engine's answer; Refused where its text is no trace, or the decisions are another's."""
    words = ['run', 'hybrid']
    answer = lpt.answer(words, source.text)
    if answer.status == lpt.NO_TRACE:
        raise Refused(f'{path}: {answer.fault}')
    if answer.status:
        raise lpt.failed(words, answer)
    return Case(trace.parse(source.text), source.decisions, source.names, report.parse(answer.output))


def add_arguments(parser: argparse.ArgumentParser) -> None:
    """The words after `verify`."""
    parser.add_argument('file', metavar='FILE', help='a recording, or BASE.lptrace with BASE.expect beside it')
    parser.add_argument('--json', action='store_true', help='write one line of JSON')


def run(options: argparse.Namespace) -> int:
    """Judges a file."""
    source = of_recording(options.file) if recording.is_recording(options.file) else of_trace(options.file)
    case = case_of(options.file, source)
    found = differences(case)
    counts = count(case.decisions)
    if options.json:
        write_json(case, found, counts)
    else:
        write_text(case, found, counts, source.which)
    return DIFFERS if found else DONE


def count(decisions: Expectation) -> Dict[str, int]:
    """How many decisions are held, by what they are about.  What /proc told of the time before the recording is no decision
    that was seen: such switches are counted apart."""
    found = {what: 0 for what in (*COUNTED.values(), FROM_BEFORE)}
    for decision in decisions.decisions:
        if decision.word in COUNTED:
            found[FROM_BEFORE if decision.rest[:1] == ('told',) else COUNTED[decision.word]] += 1
    return found


def write_text(case: Case, found: List[Difference], counts: Dict[str, int], which: str) -> None:
    """A line for each difference, and a last one that says what was held."""
    for line in cautions(case):
        print(line)
    for difference in found[:MOST_TOLD]:
        print(f'{difference.kind}: {difference.text}')
    if len(found) > MOST_TOLD:
        print(f'.. and {len(found) - MOST_TOLD} more (--json has them all)')
    seen = [told(number, what) for what, number in counts.items() if number and what != FROM_BEFORE]
    held = f'{", ".join(seen) or "no decision"}, in {told(len(case.decisions.legs), "transitions")}'
    if counts[FROM_BEFORE]:
        held += f' ({counts[FROM_BEFORE]} switches from before the recording, by /proc)'
    if found:
        wrong = sum(difference.decisions for difference in found)
        print(f'differs: {told(wrong, "decisions")}, of {held}; events and lines are {which}')
    else:
        print(f'same: {held}')


def cautions(case: Case) -> List[str]:
    """What to know before what follows."""
    return [f'caution: the probe {probe} missed {missed} records; what follows may be wrong'
             for probe, missed in (case.names['missed'] if case.names else {}).items()]


def told(number: int, what: str) -> str:
    """A number of things."""
    return f'{number} {what if number != 1 else ONE[what]}'


def write_json(case: Case, found: List[Difference], counts: Dict[str, int]) -> None:
    """All of it as one line of JSON."""
    print(json.dumps({
        'version': 1, 'kernel': case.decisions.kernel, 'agrees': not found, 'events': len(case.trace.events),
        'transitions': len(case.decisions.legs), 'held': counts, 'differing': sum(difference.decisions for difference in found),
        'differences': [difference.data() for difference in found]}, sort_keys=True))
