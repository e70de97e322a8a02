"""Writes SVG: elements line by line, each text and attribute escaped."""
from typing import List, NamedTuple, Optional, Sequence, Union

from ..escape import markup

Value = Union[str, int, float]

class Colours(NamedTuple):
    """What a picture is drawn in; `stack` is the line in a bar, `no` what is refused."""
    paper: str
    ink: str
    dim: str
    no: str
    stack: str
    levels: Sequence[str]


# For a light page, and for a dark one where the reader's system asks for it.
LIGHT = Colours('#ffffff', '#1d2530', '#5b6470', '#b00020', '#14181d',
                ('#3b6ea8', '#d97a2b', '#5a9a4a', '#a04a8c', '#8a7a2a', '#2f8f8f', '#b5566a', '#6a6a9a'))
DARK = Colours('#14181d', '#e6e9ed', '#9aa4af', '#ff7b88', '#f5f7fa',
               ('#5b8fce', '#e08e45', '#6fb45e', '#c070ac', '#b09f45', '#4bb0b0', '#d2788c', '#8f8fc4'))


def number(value: Value) -> str:
    """An attribute's value: numbers with one digit behind the point at most, since a tenth of a pixel is nothing."""
    return f'{value:.1f}'.rstrip('0').rstrip('.') if isinstance(value, float) else str(value)


class Drawing:
    """The elements of a picture so far."""

    def __init__(self) -> None:
        self.lines: List[str] = []

    def put(self, element: str, *, text: Optional[str] = None, title: Optional[str] = None, **attributes: Value) -> None:
        """An element; `title` is what a reader sees who points at it."""
        self.open(element, **attributes)
        content = '' if title is None else f'<title>{markup(title)}</title>'
        content += '' if text is None else markup(text)
        self.lines[-1] = f'{self.lines[-1]}{content}</{element}>' if content else f'{self.lines[-1][:-1]}/>'

    def open(self, element: str, **attributes: Value) -> None:
        """The beginning of an element; `class_` and names with `_` are the attributes with `-`."""
        told = ''.join(f' {key.rstrip("_").replace("_", "-")}="{markup(number(value))}"' for key, value in attributes.items())
        self.lines.append(f'<{element}{told}>')

    def close(self, element: str) -> None:
        """The end of an element."""
        self.lines.append(f'</{element}>')


def rules_of(colours: Colours) -> List[str]:
    """The style's rules for one set of colours."""
    got = [f'.lp-paper{{fill:{colours.paper}}}', f'.lp-ink{{fill:{colours.ink}}}', f'.lp-dim{{fill:{colours.dim}}}',
           f'.lp-no{{fill:{colours.no}}}', f'.lp-halo{{stroke:{colours.paper}}}', f'.lp-over{{stroke:{colours.ink}}}',
           f'.lp-frame,.lp-busy{{stroke:{colours.no}}}', f'.lp-group{{fill:{colours.no}}}', f'.lp-stack{{fill:{colours.stack}}}',
           f'.lp-grid{{stroke:{colours.dim}}}']
    for level, colour in enumerate(colours.levels):
        got.append(f'.lp-level{level}{{fill:{colour}}}.lp-edge{level}{{stroke:{colour}}}')
    return got


def style() -> str:
    """The style of a picture: no variables, since not every viewer of SVG knows them."""
    shapes = ['.lp text{font-family:system-ui,sans-serif;font-size:11px}', '.lp .lp-small{font-size:10px}',
              '.lp-halo{fill:none;stroke-width:4}', '.lp-over,.lp-frame,.lp-busy{fill:none;stroke-width:1.6}']
    return ('<style>' + ''.join(shapes + rules_of(LIGHT))
            + '@media (prefers-color-scheme:dark){' + ''.join(rules_of(DARK)) + '}</style>')


def level_class(kind: str, level: int) -> str:
    """The class of a level's colour."""
    return f'lp-{kind}{level % len(LIGHT.levels)}'
