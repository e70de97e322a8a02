"""BASE.names: who the tasks of a trace are, when its events were, their stacks, what is missing.

A JSON object with `version` 1.  Event numbers in it are those of the trace beside it; `prologue` is the number of its
first events that say what was before the recording.
"""
import json
from typing import Any, Dict, List, NamedTuple, Optional

from .errors import Refused

VERSION = 1


class Who(NamedTuple):
    """A task: kind is user, kthread or idle; an idle task has a cpu."""
    pid: int
    tgid: int
    kind: str
    comm: str
    cpu: Optional[int] = None


class Names:
    """The object; the members that every reader needs have properties, the others are in `data`.

    Further keys: kernel, patches (by level), functions (patch to symbols), times ([[event, seconds]]), marks (the
    seconds at which the recorder told the time), stacks (task to
    [[event, entries, state]]), kernel_legs and kernel_says (lines of BASE.expect), missing (texts), missed (probe to
    count), light, calls_known, began_in_transition, messages ([[seconds, text]] of the kernel's log), me, log.
    """

    def __init__(self, data: Dict[str, Any]) -> None:
        self.data = data

    def __getitem__(self, key: str) -> Any:
        return self.data[key]

    def get(self, key: str, default: Any = None) -> Any:
        """A member, or the default."""
        return self.data.get(key, default)

    @property
    def tasks(self) -> Dict[int, Who]:
        """The tasks by their numbers in the trace."""
        return {int(number): Who(row['pid'], row['tgid'], row['kind'], row['comm'], row.get('cpu'))
                for number, row in self.data['tasks'].items()}

    @property
    def prologue(self) -> int:
        """The last event that is a reconstruction of what was before the recording."""
        return int(self.data['prologue'])

    @property
    def missing(self) -> List[str]:
        """What the recording couldn't have."""
        return list(self.data['missing'])

    def text(self) -> str:
        """The file's text: a line for each member, and of those that are objects for each of theirs."""
        return '{' + ','.join(f'\n"{key}": {lines(value)}' for key, value in self.data.items()) + '\n}\n'


def lines(value: Any) -> str:
    """A member's JSON."""
    if not isinstance(value, dict) or not value:
        return json.dumps(value)
    return '{' + ','.join(f'\n {json.dumps(key)}: {json.dumps(inner)}' for key, inner in value.items()) + '\n}'


def parse(text: str) -> Names:
    """The names of a text; Refused where it is none, or of another version."""
    try:
        data = json.loads(text)
    except ValueError as fault:
        raise Refused(f'the names are no JSON: {fault}') from None
    if not isinstance(data, dict) or data.get('version') != VERSION:
        raise Refused(f'the names are of another version than {VERSION}')
    return Names(data)
