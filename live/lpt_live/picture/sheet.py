"""Lays a story out on a sheet: tasks go down, events across, each bar in the colour of its task's level."""
from typing import Callable, Collection, Dict, List, Mapping, NamedTuple, Optional, Sequence, Tuple

from .. import rules
from ..tasks import Frame
from .legend import HEIGHTS, LETTER, entries, put_legend, put_mark
from .story import Leg, Life, Mark, Story, Stretch
from .svg import Drawing, level_class, style

WIDTH = 1200
BELOW = 30          # for the axis
LABELS = 40         # above the bars, for legs and refused events
STRETCHES = 20000   # in a picture: what is so short that there would be more is joined with what comes after
THINNEST = 0.25     # of a pixel, of a stretch in any picture
APART = 4           # pixels between refusals of one task that look the same: walks of hours would make a line of them


class Words(NamedTuple):
    """How a picture names things: a task in front of its bar and in a tooltip, an event, that something was at one, a level."""
    label: Callable[[int], str]
    task: Callable[[int], str]
    event: Callable[[int], str]
    at: Callable[[int], str]
    level: Callable[[int], str]


def plain_words(story: Story) -> Words:
    """The words of a trace without a recording: numbers, and the lines of the events."""
    def event(number: int) -> str:
        return f'event {number} (line {story.trace.line_of(number)})' if number else 'the start'

    def level(number: int) -> str:
        return f'level {number}' if story.trace.stacked else ('the old level', 'the new level')[number]
    return Words('task {}'.format, 'task {}'.format, event, lambda number: f'at {event(number)}', level)


class Scale(NamedTuple):
    """Where events lie, from 0 at the left edge to 1 at the right; the axis' marks, and what they count."""
    at: Callable[[int], float]
    marks: Sequence[Tuple[float, str]]
    unit: str


def by_number(first: int, last: int) -> Scale:
    """Events at equal distances."""
    wide = WIDTH / max(1, last - first + 1)
    apart = next(n * 10 ** k for k in range(8) for n in (1, 2, 5) if n * 10 ** k * wide >= 34)
    shown = [first, *(event for event in range((first // apart + 1) * apart, last + 1, apart) if (event - first) * wide >= 34)]

    def at(event: int) -> float:
        return (event - first) * wide / WIDTH
    return Scale(at, [(at(event), str(event)) for event in shown], 'event')


class Sheet:
    """The picture of a story from one event to another, of some tasks."""

    def __init__(self, story: Story, first: int, last: int, chosen: Collection[int] = (), words: Optional[Words] = None,
                 scale: Optional[Scale] = None) -> None:
        self.story, self.first, self.last = story, first, last
        self.words, self.scale = words or plain_words(story), scale or by_number(first, last)
        lives = [life for life in story.lives.values() if life.born <= last and (life.died is None or life.died >= first)]
        self.order = [life.number for life in lives if not chosen or life.number in chosen]
        self.place = {number: index for index, number in enumerate(self.order)}
        self.marks = [mark for mark in story.marks if first <= mark.event <= last and mark.task in self.place]
        self.row = 26 if len(self.order) <= 24 else 13
        self.left = 16 + LETTER * max([len(self.words.label(number)) for number in self.order] + [6])
        self.patched = {symbol for functions in story.trace.patches.values() for symbol in functions}
        self.thinnest = max(THINNEST, WIDTH * len(self.order) / STRETCHES)
        self.drawing = Drawing()
        self.top = self.bottom = 0.0

    def x(self, event: int) -> float:
        """Where an event is, within the sheet's edges."""
        return self.left + min(1.0, max(0.0, self.scale.at(event))) * WIDTH

    def middle(self, task: int) -> float:
        """The middle of a task's row."""
        return self.top + self.row * (self.place[task] + 0.5)

    def svg(self) -> str:
        """The whole picture."""
        width = self.left + WIDTH + 20
        shown = [life for number, life in self.story.lives.items() if number in self.place]
        levels = sorted({stretch.level for life in shown for stretch, end in self.stretches(life)
                         if stretch.begin <= self.last and end >= self.first})
        refusals = {event: why for event, why in self.story.refused.items() if self.first <= event <= self.last}
        found = entries(levels, self.words.level, [mark.kind for mark in self.marks], bool(refusals))
        self.top = put_legend(self.drawing, found, 8, width - 16) + LABELS
        self.bottom = self.top + self.row * len(self.order)
        for leg, following in zip(self.story.legs, [*self.story.legs[1:], None]):
            self.put_leg(leg, following)
        self.put_refusals(refusals)
        for life in shown:
            self.put_life(life)
        self.put_marks()
        self.put_axis()
        about = f'The tasks of a trace under {self.story.model}, events {self.first} to {self.last}'
        head = (f'<svg xmlns="http://www.w3.org/2000/svg" class="lp" role="img" width="{width:.0f}" '
                f'height="{self.bottom + BELOW:.0f}" viewBox="0 0 {width:.0f} {self.bottom + BELOW:.0f}">')
        return '\n'.join([head, f'<title>{about}</title>', style(), '<rect width="100%" height="100%" class="lp-paper"/>',
                          *self.drawing.lines, '</svg>']) + '\n'

    # -- legs and refused events
    def put_leg(self, leg: Leg, following: Optional[Leg]) -> None:
        """A transition behind the bars, from its opening to its completion, or to the next."""
        ended = leg.complete or (following.opened if following else self.last + 1)
        if ended < self.first or leg.opened > self.last:
            return
        begin, end, edge = self.x(leg.opened), self.x(ended), level_class('edge', leg.target)
        told = f'transition to {self.words.level(leg.target)}, opened {self.words.at(leg.opened)}, ' + (
            f'complete {self.words.at(leg.complete)}' if leg.complete else 'not complete')
        self.drawing.put('rect', x=begin, y=self.top, width=max(1.0, end - begin), height=self.bottom - self.top,
                         class_=level_class('level', leg.target), opacity='0.12', title=told)
        self.drawing.put('line', x1=begin, x2=begin, y1=self.top - 14, y2=self.bottom, class_=edge)
        self.put_label(begin, self.top - 16, f'leg {leg.opened} to level {leg.target}')
        if leg.complete and self.first <= leg.complete <= self.last:
            self.drawing.put('line', x1=end, x2=end, y1=self.top - 14, y2=self.bottom, class_=edge, stroke_dasharray='4 3')
            self.put_label(end, self.top - 28, f'complete {leg.complete}')

    def put_label(self, x: float, y: float, text: str) -> None:
        """A text behind a line, before it where the sheet ends."""
        fits = x + 3 + LETTER * len(text) < self.left + WIDTH + 20
        if fits:
            self.drawing.put('text', text=text, x=x + 3, y=y, class_='lp-ink')
        else:
            self.drawing.put('text', text=text, x=x - 3, y=y, class_='lp-ink', text_anchor='end')

    def put_refusals(self, refusals: Mapping[int, str]) -> None:
        """The refused events, above the bars: why, where there is room for it."""
        free = 0.0
        for event, why in refusals.items():
            text, x = self.story.trace.events[event - 1].text, self.x(event)
            self.drawing.put('text', text=why if x > free else '|', x=x, y=self.top - 4, class_='lp-no lp-small',
                             text_anchor='middle', title=f'{text}, {self.words.at(event)}: refused, {why}')
            free = x + 20 if x > free else free

    # -- tasks
    def stretches(self, life: Life) -> List[Tuple[Stretch, int]]:
        """A life's stretches, each with its end."""
        ends = [stretch.begin for stretch in life.stretches[1:]]
        ends.append(self.last + 1 if life.died is None else life.died)
        return list(zip(life.stretches, ends))

    def put_life(self, life: Life) -> None:
        """A task's name and its bar."""
        middle, drawn = self.middle(life.number), self.x(self.first)
        self.drawing.put('text', text=self.words.label(life.number), title=self.words.task(life.number), x=self.left - 8,
                         y=middle + 4, class_='lp-ink' if self.row > 20 else 'lp-ink lp-small', text_anchor='end')
        for stretch, end in self.stretches(life):
            if end <= self.first or stretch.begin > self.last or end <= stretch.begin:
                continue
            begin = max(drawn, self.x(stretch.begin)) if stretch.begin == life.born else drawn
            if self.x(end) - begin >= self.thinnest or end > self.last:
                self.put_stretch(life.number, stretch, end, begin, middle)
                drawn = self.x(end)

    def put_stretch(self, number: int, stretch: Stretch, end: int, begin: float, middle: float) -> None:
        """A part of a bar."""
        high, wide = self.row * 0.8 * HEIGHTS[stretch.mode], self.x(end) - begin
        stack = ' < '.join(frame.symbol for frame in reversed(stretch.frames))
        told = (f'{self.words.task(number)}: {rules.MODE_IN_WORDS[stretch.mode]}, on {self.words.level(stretch.level)}, '
                f'from {self.words.event(stretch.begin)}' + (f'; stack: {stack}' if stack else ''))
        self.drawing.put('rect', x=begin, y=middle - high / 2, width=wide, height=high, title=told,
                         class_=level_class('level', stretch.level))
        if any(frame.symbol in self.patched for frame in stretch.frames):
            thick = 2.0 if self.row > 20 else 1.0
            self.drawing.put('rect', x=begin, y=middle - thick / 2, width=wide, height=thick, class_='lp-stack')

    def put_marks(self) -> None:
        """The checks' looks at tasks; the switches last, so that they lie above the others."""
        last: Dict[Tuple[int, str], float] = {}
        for mark in sorted(self.marks, key=lambda mark: (mark.kind == 'switch', mark.event)):
            x, key = self.x(mark.event), (mark.task, mark.kind)
            if mark.kind == 'switch' or x - last.get(key, -APART) >= APART:
                last[key] = x
                self.put_mark(mark)

    def put_mark(self, mark: Mark) -> None:
        """A check's look at a task."""
        word = self.story.trace.events[mark.event - 1].word
        told = {'switch': 'switches', 'busy': 'refused, busy: on a CPU', 'group': 'held back by others of its group',
                'frame': self.frame_in_words(mark.frame)}[mark.kind]
        put_mark(self.drawing, mark.kind, self.x(mark.event), self.middle(mark.task), min(1.0, self.row / 18),
                 f'{self.words.task(mark.task)}, {word} {self.words.at(mark.event)}: {told}')

    def frame_in_words(self, frame: Optional[Frame]) -> str:
        """A refusal by a frame."""
        return '' if frame is None else f'refused, {frame.symbol}, called {self.words.at(frame.serial)}, is on its stack'

    def put_axis(self) -> None:
        """The axis below the bars."""
        for place, text in self.scale.marks:
            self.drawing.put('text', text=text, x=self.left + place * WIDTH, y=self.bottom + 16, class_='lp-dim lp-small',
                             text_anchor='middle')
        self.drawing.put('text', text=self.scale.unit, x=8, y=self.bottom + 16, class_='lp-dim lp-small')
