"""Recordings that no trace is made of: their records can't be trusted, or aren't all there."""
import re
from typing import Any, Container, Dict, Iterator, Tuple

from ..errors import Refused
from ..recording import Recording

# The members that the recorder always writes.
OF_META = ('uname', 'events', 'probes', 'functions', 'modules', 'before', 'after', 'me', 'missed', 'lacks', 'notes', 'refused')
OF_FUNCTION = ('n', 'name', 'object', 'side')
OF_PATCH = ('enabled', 'transition', 'functions')
OF_SNAPSHOT = ('t', 'g', 'comm', 's', 'kt', 'ps')
OF_SAMPLE = ('t', 'ps')
LOSSES = ('overrun', 'commit overrun', 'dropped events')
RETURN_PROBE = re.compile(r'r\d+|updated')


def refuse_unfit(recording: Recording) -> None:
    """Refuses a recording that lacks a part, has lost records, or was made in a way that can't be read."""
    meta = recording.meta
    for what, has, needed in parts(recording):
        for name in needed:
            if name not in has:
                raise Refused(f'{what} has no {name}')
    lost = sum(meta.get('stats', {}).get(name, 0) for name in LOSSES)
    if lost:
        raise Refused(f'the recording has lost {lost} records: record again with a larger buffer or fewer probes')
    if any(RETURN_PROBE.fullmatch(probe) for probe in meta['probes']):
        raise Refused('the recording was made with return probes on functions, and they make the kernel call stacks unreliable')
    if meta['uname'][4] != 'x86_64':
        raise Refused(f'a recording of {meta["uname"][4]}: only the flags of x86_64 are known')


def parts(recording: Recording) -> Iterator[Tuple[str, Container[str], Tuple[str, ...]]]:
    """Each part of a recording, and the members that it needs."""
    meta: Dict[str, Any] = recording.meta
    yield 'the recording', meta, OF_META
    for function in meta['functions'].values():
        yield 'a function of the recording', function, OF_FUNCTION
    for patch in [*meta['before'].values(), *meta['after'].values()]:
        yield 'a patch of the recording', patch, OF_PATCH
    for look in recording.proc:
        snapshot = 'snap' in look
        yield 'a look into /proc', look, ('tasks',) if snapshot else ('sample', 'tasks')
        for row in look['tasks']:
            yield 'a look into /proc', row, OF_SNAPSHOT if snapshot else OF_SAMPLE
