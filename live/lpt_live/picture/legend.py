"""The legend: what the bars, colours and marks of a picture mean."""
from typing import Callable, List, NamedTuple, Sequence

from ..tasks import ASLEEP, KERNEL, USER
from .svg import Drawing, Value, level_class

LETTER = 6.2        # how wide a letter is, about
ROW = 20
HEIGHTS = {USER: 0.25, ASLEEP: 0.5, KERNEL: 0.8}
SHAPES = {'switch': ('lp-over', 'M-5.5 0a5.5 5.5 0 1 0 11 0a5.5 5.5 0 1 0-11 0Z'), 'frame': ('lp-frame', 'M-5-5L5 5M-5 5L5-5'),
          'busy': ('lp-busy', 'M0-5.5L5.5 4.5L-5.5 4.5Z'), 'group': ('lp-group', 'M-2.5 0L0-2.5L2.5 0L0 2.5Z')}
MEANINGS = {'switch': 'a check at which it switches', 'frame': 'refused: stale code on its stack',
            'busy': 'refused: busy, on a CPU', 'group': 'held back by others of its group'}


class Entry(NamedTuple):
    """A sign and what it means; `draw` puts the sign at a place."""
    draw: Callable[[Drawing, float, float], None]
    meaning: str


def put_mark(drawing: Drawing, kind: str, x: float, y: float, size: float, title: str) -> None:
    """A mark of a check, with a halo, since it lies on bars of any colour."""
    name, shape = SHAPES[kind]
    drawing.open('g', transform=f'translate({x:.1f} {y:.1f}) scale({size:.2f})')
    drawing.put('path', d=shape, class_='lp-halo')
    drawing.put('path', d=shape, class_=name, title=title)
    drawing.close('g')


def bar(mode: str) -> Entry:
    """A bar of a mode."""
    words = {USER: 'in user space', ASLEEP: 'off its CPU in the kernel', KERNEL: 'in the kernel on a CPU'}

    def draw(drawing: Drawing, x: float, y: float) -> None:
        high = 16 * HEIGHTS[mode]
        drawing.put('rect', x=x, y=y - high / 2, width=18, height=high, class_=level_class('level', 0))
    return Entry(draw, words[mode])


def colour(level: int, meaning: str) -> Entry:
    """The colour of a level."""
    def draw(drawing: Drawing, x: float, y: float) -> None:
        drawing.put('rect', x=x, y=y - 6, width=18, height=12, class_=level_class('level', level))
    return Entry(draw, meaning)


def on_stack() -> Entry:
    """The line of a bar whose task has a patched function on its stack."""
    def draw(drawing: Drawing, x: float, y: float) -> None:
        drawing.put('rect', x=x, y=y - 4, width=18, height=8, class_=level_class('level', 0))
        drawing.put('rect', x=x, y=y - 1, width=18, height=2, class_='lp-stack')
    return Entry(draw, 'a patched function is on its stack')


def mark(kind: str) -> Entry:
    """A mark of a check."""
    def draw(drawing: Drawing, x: float, y: float) -> None:
        put_mark(drawing, kind, x + 9, y, 1, MEANINGS[kind])
    return Entry(draw, MEANINGS[kind])


def refused_event() -> Entry:
    """The sign of an event that was refused."""
    def draw(drawing: Drawing, x: float, y: float) -> None:
        drawing.put('text', text='E6', x=x, y=y + 4, class_='lp-no lp-small')
    return Entry(draw, 'a refused event, and why (E1 to E12)')


def entries(levels: Sequence[int], names: Callable[[int], str], marks: Sequence[str], refusals: bool) -> List[Entry]:
    """The entries of a picture with these levels and kinds of mark."""
    got = [bar(USER), bar(ASLEEP), bar(KERNEL), on_stack()]
    got += [colour(level, names(level)) for level in levels]
    got += [mark(kind) for kind in SHAPES if kind in marks]
    return got + ([refused_event()] if refusals else [])


def put_legend(drawing: Drawing, found: Sequence[Entry], left: float, width: float) -> float:
    """Draws the entries in rows from the top; how high they are."""
    x, y = left, 14.0
    for entry in found:
        wide = 26 + LETTER * len(entry.meaning) + 14
        if x > left and x + wide > left + width:
            x, y = left, y + ROW
        entry.draw(drawing, x, y)
        place: Value = x + 25
        drawing.put('text', text=entry.meaning, x=place, y=y + 4, class_='lp-ink')
        x += wide
    return y + 10
