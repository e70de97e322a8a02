"""Makes a trace of a recording: BASE.lptrace, BASE.names (who the tasks are, times, stacks) and BASE.expect (the
kernel's own decisions).

A record becomes no, one or more events of one task.  What was before the recording is told by a prologue, in as few events
as say it.  Events that no model's decision depends on are left out, unless --whole asks for them.  A recording of which
a trace can't tell the truth is refused with the reason, and then nothing is written.
"""
import argparse
import collections
from typing import Counter, Dict, List, NamedTuple

from .. import expectation, files, names, progress, recording
from ..errors import DONE, Refused
from ..recording import Recording
from . import calls, checks, looks, probes, prologue, scheduling, tracepoints, transitions
from .beginning import Beginning, settle_births, states_at_start
from .levels import Levels, mark_gone, without_failed_forks
from .output import Output, refuse_too_long
from .reading import Reading, read
from .record import UNDEFINED, Record
from .stage import Rule, Stage
from .thinned import thinned
from .unfit import refuse_unfit
from .windows import sort

RULES: Dict[str, Rule] = {**scheduling.RULES, **calls.RULES, **checks.RULES, **transitions.RULES, **looks.RULES}
# These tell nothing of their own: what they mean is in the records that were made of them.
SILENT = ('gone', 'started', 'forked', 'updated', 'signals')
# A task of these records is on a CPU, where the scheduler wasn't recorded.
ON_CPU = ('enter', 'call', 'copy', 'update', 'resched', 'dying', 'open', 'walk', 'control')
OF_THE_DEAD = ('copy', 'walk', 'open')


class Converted(NamedTuple):
    """The three texts of a conversion."""
    trace: str
    expectation: expectation.Expectation
    names: names.Names


def play(stage: Stage, records: List[Record]) -> None:
    """All records, each by the rule of its kind."""
    for place, record in enumerate(progress.over(records, 'writing events'), 1):
        if not stage.switches and record.kind in ON_CPU:
            stage.wake(record.task, place)
        if record.kind in SILENT:
            continue
        if record.kind == 'time':
            looks.time(stage, place, record)
            continue
        if record.task in stage.dead and record.kind != 'out':
            if record.kind != 'release':
                stage.log['records of the dead'] += 1
            if record.kind not in OF_THE_DEAD:
                continue
        if record.task not in stage.beginning.zombies:
            if record.kind not in RULES:        # a check outside of its walk, a start outside of its opening
                raise Refused(f'{record}: it is out of its place')
            RULES[record.kind](stage, place, record)


def staged(reading: Reading, log: Counter[str]) -> Stage:
    """The stage after the last record."""
    records = mark_gone(without_failed_forks(reading.records, log), reading.prior)
    levels = Levels(reading.meta['before'], reading.functions.load_order, reading.prior)
    levels.follow(records)
    if not levels.of_patch:
        raise Refused('no patch was on and none came while this was recorded')
    for patch in levels.of_patch:
        if not reading.functions.of_patch.get(patch):
            raise Refused(f'the functions of patch {patch} aren\'t known')
    born = {record.about for record in records if record.kind == 'copy'}
    states = states_at_start(reading, records, born)
    if reading.prior:
        settle_births(records, states, reading.prior[1])
    records, within = sort(records, reading.prior[1] if reading.prior else UNDEFINED, states, reading.has_own_check, log)
    stage = Stage(reading, levels, Beginning(reading, records, born, log), records, within, log)
    prologue.tell(stage, states)
    stage.coming_stacks = looks.stacks_to_come(records, reading.samples, reading.roster, reading.functions)
    play(stage, records)
    return stage


def converted(source: Recording, whole: bool = False) -> Converted:
    """The trace of a recording, with names and decisions; Refused where a trace can't tell the truth of it."""
    log: Counter[str] = collections.Counter()
    refuse_unfit(source)
    reading = read(source, {**tracepoints.HANDLERS, **probes.HANDLERS}, probes.close_update, log)
    output = Output(staged(reading, log))
    trace, decisions, who = output.trace, output.expectation, names.Names(output.names)
    if not whole:
        trace, decisions, who = thinned(trace, decisions, who)
    refuse_too_long(trace, whole)
    return Converted('\n'.join(trace) + '\n', decisions, who)


def add_arguments(parser: argparse.ArgumentParser) -> None:
    """The words after `convert`."""
    parser.add_argument('file', metavar='FILE', help='a recording')
    parser.add_argument('base', metavar='BASE', help='where to write: BASE.lptrace, BASE.names, BASE.expect')
    parser.add_argument('--whole', action='store_true', help='keep each event, also those that change no decision')


def run(options: argparse.Namespace) -> int:
    """Converts a file."""
    result = converted(recording.read(options.file), options.whole)
    files.write_all({options.base + '.lptrace': result.trace, options.base + '.expect': result.expectation.text(),
                     options.base + '.names': result.names.text()})
    log = result.names['log']
    print(f'{options.base}.lptrace: ' + ', '.join(f'{count} {what}' for what, count in log.items() if count))
    return DONE
