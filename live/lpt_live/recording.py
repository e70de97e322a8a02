"""A recording's file: what `lpt-live record` leaves and `lpt-live convert` reads.

A gzip text.  Its first line is `lprecording 1`, its second a JSON object (what the recorder knew: the kernel, its
probes, the functions, the patches before and after).  Then the line `#PROC` and a JSON object for each look into /proc
(`snap` of each task at the start, `sample` of those that wait), the line `#TRACE` and the records of tracefs as it wrote
them, and the line `#LAST`, without which the recording is cut.
"""
import gzip
import json
import os
import zlib
from typing import IO, Any, Dict, Iterable, Iterator, List, NamedTuple, Optional, Type

from .errors import Refused

FIRST_LINE = 'lprecording 1'
MAGIC = b'\x1f\x8b'
PARTS = ('', '#PROC', '#TRACE', '#LAST')


class Recording(NamedTuple):
    """The parts of a recording."""
    meta: Dict[str, Any]
    proc: List[Dict[str, Any]]
    records: List[str]


def is_recording(path: str) -> bool:
    """Whether the file begins as a gzip file does, so that it can only be a recording."""
    try:
        with open(path, 'rb') as file:
            return file.read(2) == MAGIC
    except OSError:
        return False


def read(path: str) -> Recording:
    """The recording of a file; Refused where it is none, is cut, or of another version."""
    try:
        with gzip.open(path, 'rt', encoding='utf-8', errors='replace') as file:
            return read_lines(line.rstrip('\n') for line in file)
    except EOFError:
        raise Refused(f'{path}: the recording is cut: its compressed data has no end') from None
    except (gzip.BadGzipFile, zlib.error) as fault:
        raise Refused(f'{path}: no recording: {fault}') from None
    except OSError as fault:
        raise Refused(f'{path}: {fault.strerror}') from None
    except Refused as fault:
        raise Refused(f'{path}: {fault}') from None


def read_lines(lines: Iterator[str]) -> Recording:
    """The recording of its lines."""
    first = next(lines, '')
    if first != FIRST_LINE:
        if first.startswith('lprecording '):
            raise Refused(f'a recording of another version: {first!r}; this program reads {FIRST_LINE!r}')
        raise Refused(f'no recording: its first line is {first[:40]!r}, not {FIRST_LINE!r}')
    parts: Dict[str, List[str]] = {name: [] for name in PARTS}
    part = ''
    for line in lines:
        if line in PARTS[1:]:
            part = line
        else:
            parts[part].append(line)
    if part != '#LAST':
        raise Refused('the recording is cut: it has no line #LAST')
    if parts['#LAST'] or len(parts['']) != 1:
        raise Refused('the recording has lines where none belong')
    try:
        return Recording(json.loads(parts[''][0]), [json.loads(line) for line in parts['#PROC']], parts['#TRACE'])
    except ValueError as fault:
        raise Refused(f'the recording has a line that is no JSON: {fault}') from None


class Writer:
    """Writes a recording part by part, beside its place, and puts it there at the end: it is whole or not there.

    with Writer(path) as out: out.meta({..}); out.proc({..}) ..; out.records(lines) ..
    """

    def __init__(self, path: str, level: int = 4) -> None:
        self.path = path
        self.beside = f'{path}.{os.getpid()}.part'
        self.part = ''
        self.file: IO[str] = gzip.open(self.beside, 'wt', compresslevel=level, encoding='utf-8', errors='replace')

    def meta(self, data: Dict[str, Any]) -> None:
        """The first two lines."""
        self.file.write(FIRST_LINE + '\n' + json.dumps(data) + '\n')

    def proc(self, row: Dict[str, Any]) -> None:
        """A look into /proc."""
        self.enter('#PROC')
        self.file.write(json.dumps(row, separators=(',', ':')) + '\n')

    def records(self, lines: Iterable[str]) -> None:
        """Records of tracefs, each with or without its end of line."""
        self.enter('#TRACE')
        for line in lines:
            self.file.write(line if line.endswith('\n') else line + '\n')

    def enter(self, part: str) -> None:
        """Begins a part, and with it those before it: each is there, though it be empty."""
        for name in PARTS[PARTS.index(self.part) + 1:PARTS.index(part) + 1]:
            self.file.write(name + '\n')
            self.part = name

    def __enter__(self) -> 'Writer':
        return self

    def __exit__(self, kind: Optional[Type[BaseException]], *_: object) -> None:
        if kind is None:
            self.enter('#LAST')
            self.file.close()
            os.replace(self.beside, self.path)
        else:
            self.file.close()
            os.unlink(self.beside)
