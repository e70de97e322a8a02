"""The picture of a run: its tasks, their levels, and whom each check switched or refused."""
from typing import Collection, Optional, Tuple

from ..errors import Refused
from .sheet import Scale, Sheet, Words
from .story import Story

__all__ = ['Scale', 'Story', 'Words', 'draw']


def draw(story: Story, events: Optional[Tuple[int, int]] = None, tasks: Collection[int] = (), words: Optional[Words] = None,
         scale: Optional[Scale] = None) -> str:
    """The picture as SVG; Refused where nothing of the story lies in it."""
    count = len(story.trace.events)
    first, last = events or (1, max(1, count))
    if events and first > count:
        raise Refused(f'the trace has {count} events, so none from {first} on')
    unknown = sorted(set(tasks) - set(story.lives))
    if unknown:
        raise Refused(f'the trace has no task {unknown[0]}')
    return Sheet(story, first, min(last, max(1, count)), tasks, words, scale).svg()
