"""One difference between the kernel and the engine."""
from typing import Any, Dict, NamedTuple, Optional

TOO_EARLY = 'too early'
TOO_LATE = 'too late'
VERSION = 'another version ran'
SAMPLE = 'another sample'
COMPLETION = 'completed too early'
OTHER = 'differs'


class Frame(NamedTuple):
    """A stale frame: the function, the version of it, the event that called it and that event's line."""
    function: str
    version: str
    event: int
    line: int


class Difference(NamedTuple):
    """What differs, at which event, of which task (0: of none); `decisions` counts the decisions that it is about."""
    kind: str
    event: int
    line: int
    task: int
    text: str
    decisions: int = 1
    frame: Optional[Frame] = None
    engine: Optional[int] = None        # the event at which the engine does it

    def data(self) -> Dict[str, Any]:
        """Its members, for JSON."""
        row = self._asdict()
        row['frame'] = self.frame._asdict() if self.frame else None
        return row
