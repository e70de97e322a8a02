"""What `lpt-live` says of each recording that the guest made: verified, converted, explained."""
import json
import re
import subprocess
import sys
from pathlib import Path
from typing import Dict, List, NamedTuple

from .plan import MAY_DIFFER

PROGRAM = Path(__file__).resolve().parent.parent.parent / 'lpt-live'
PATIENCE = 300
COUNTED = ('switches', 'refusals', 'versions', 'births', 'samples')
COLUMNS = ('Kernel', 'Preemption', 'Recording', 'Events', 'Transitions', *(word.capitalize() for word in COUNTED), '`verify`')


class Row(NamedTuple):
    """One recording, as a row of the table."""
    kernel: str
    preempt: str
    recording: str
    counts: List[str]
    verdict: str
    good: bool


def live(*words: str) -> 'subprocess.CompletedProcess[str]':
    """What the program says; one that doesn't come to its end has failed."""
    command = [sys.executable, str(PROGRAM), *words]
    try:
        return subprocess.run(command, text=True, stdout=subprocess.PIPE, stderr=subprocess.PIPE, timeout=PATIENCE)
    except subprocess.TimeoutExpired:
        return subprocess.CompletedProcess(command, 9, '', f'no answer within {PATIENCE} s')


def counts(answer: str) -> List[str]:
    """What of the kernel's decisions was held against the engine's, by `verify --json`."""
    try:
        told = json.loads(answer)
    except ValueError:
        return ['-'] * (len(COUNTED) + 2)
    return [str(told['events']), str(told['transitions'])] + [str(told['held'][each]) for each in COUNTED]


def judge(recording: Path, line: str, kernel: str, preempt: str) -> Row:
    """Verifies, converts and explains; leaves the trace, the page and what was said beside the recording."""
    name, base = recording.stem, recording.with_suffix('')
    verified = live('verify', str(recording))
    Path(f'{base}.verify').write_text(verified.stdout + verified.stderr)
    converted = live('convert', str(recording), str(base))
    explained = live('explain', str(recording))
    Path(f'{base}.page').write_text(explained.stdout + explained.stderr)
    said = (verified.stdout if verified.returncode < 2 else verified.stderr).strip().splitlines()
    bad = [word for word, done in (('convert', converted), ('explain', explained)) if done.returncode]
    words = ['same' if not verified.returncode else said[-1] if said else 'nothing said', *(f'{word} failed' for word in bad)]
    may_differ = (line, preempt, name) in MAY_DIFFER and verified.returncode == 1
    return Row(kernel, preempt or 'default', name, counts(live('verify', '--json', str(recording)).stdout), '; '.join(words),
               not bad and (not verified.returncode or may_differ))


def left_over(files: Dict[str, Path]) -> List[str]:
    """The recorders that left probes in the kernel.  One that was killed outright leaves some: no later one may."""
    found = []
    for name, path in files.items():
        for line in path.read_text(errors='replace').splitlines() if name.endswith('.left') else ():
            if not line.endswith(': 0') and not line.startswith('ended-by-KILL'):
                found.append(line)
    return found


def table(rows: List[Row]) -> str:
    """The rows, as Markdown."""
    lines = ['| ' + ' | '.join(COLUMNS) + ' |', '|---' * len(COLUMNS) + '|']
    for row in rows:
        cells = [row.kernel, row.preempt, row.recording, *row.counts, re.sub(r'\|', '/', row.verdict)]
        lines.append('| ' + ' | '.join(cells) + ' |')
    return '\n'.join(lines) + '\n'
