"""A page as one HTML file that needs nothing else: no network, no script, light and dark as the reader's system is."""
import re
from typing import List, Sequence

from ..escape import markup
from .models import NAMES
from .page import Page
from .page_text import others
from .waiting import Waiter

STYLE = '''
:root{color-scheme:light dark;--paper:#ffffff;--ink:#1d2530;--dim:#5b6470;--line:#d5dae1;--box:#f5f7fa;--no:#b00020;--yes:#1d7a46}
@media (prefers-color-scheme:dark){:root{--paper:#14181d;--ink:#e6e9ed;--dim:#9aa4af;--line:#343b44;--box:#1c2229;
--no:#ff7b88;--yes:#63c78f}}
body{margin:0 auto;max-width:84rem;padding:1.5rem 1.25rem 3rem;background:var(--paper);color:var(--ink);
font:15px/1.5 system-ui,-apple-system,"Segoe UI",sans-serif}
h1{font-size:1.45rem;line-height:1.3;margin:0 0 .25rem;overflow-wrap:anywhere}
h2{font-size:1.1rem;margin:2rem 0 .6rem}p{margin:.3rem 0}
.dim{color:var(--dim)}.state{border:1px solid var(--line);border-left:5px solid var(--no);background:var(--box);border-radius:4px;
padding:.7rem 1rem;margin:1rem 0}.state.done{border-left-color:var(--yes)}.state strong{display:block;font-size:1.1rem}
.caution{border:1px solid var(--no);border-radius:4px;padding:.5rem 1rem;margin:1rem 0}
.wide{overflow-x:auto}figure{margin:0;border:1px solid var(--line);border-radius:4px}
figure svg{display:block;width:100%;min-width:60rem;height:auto}
table{border-collapse:collapse;width:100%}caption{text-align:left;color:var(--dim);padding-bottom:.4rem}
th,td{text-align:left;vertical-align:top;padding:.45rem .8rem .45rem 0;border-bottom:1px solid var(--line)}
thead th{color:var(--dim);font-weight:600;white-space:nowrap}tbody th{font-weight:600;min-width:8rem}
th .dim{font-weight:400}td{min-width:8rem}
code,pre{font-family:ui-monospace,"DejaVu Sans Mono",Menlo,Consolas,monospace;font-size:.85em}pre{line-height:1.25;margin:0}
.whole{white-space:nowrap}.stack{display:block;color:var(--dim);overflow-wrap:anywhere}
@media print{body{max-width:none}.wide{overflow:visible}}
'''
POLICY = 'default-src \'none\'; style-src \'unsafe-inline\''
COLUMNS = ('Who', 'Where, and since when', 'Refused', 'Goes over', 'Would help', 'What became of it')


def html_of(page: Page, picture: str) -> str:
    """The page's HTML."""
    parts = [
        '<!DOCTYPE html>', '<html lang="en">', '<head>', '<meta charset="utf-8">',
        f'<meta http-equiv="Content-Security-Policy" content="{POLICY}">',
        '<meta name="viewport" content="width=device-width, initial-scale=1">', f'<title>{markup(page.title)}</title>',
        f'<style>{STYLE}</style>', '</head>', '<body>', f'<h1>{markup(page.title)}</h1>',
        *(f'<p class="dim">{markup(line)}</p>' for line in page.head), *cautions(page.cautions), *state(page), *who_waits(page)]
    if page.what_if:
        parts += ['<h2>What if</h2>', f'<p>{calm(page.what_if)}</p>']
    parts += ['<h2>The picture</h2>', f'<figure class="wide" tabindex="0">{picture}</figure>',
              '<p class="dim">Pointing at a bar, a mark or a name tells more.</p>', *models(page)]
    if len(page.timeline) > 1:
        parts += ['<h2>Timeline</h2>', f'<p class="dim">{calm(page.timeline[0])}</p>',
                  f'<div class="wide" tabindex="0"><pre>{markup_lines(page.timeline[1:])}</pre></div>']
    return '\n'.join([*parts, '</body>', '</html>']) + '\n'


def calm(text: str) -> str:
    """A line's markup, its first words in capitals as a sentence has them: those stand out in a terminal alone."""
    return markup(re.sub(r'^[A-Z]{3,}( [A-Z]{2,})*\b', lambda found: found[0].capitalize(), text))


def markup_lines(lines: Sequence[str]) -> str:
    """Lines that keep their ends."""
    return '\n'.join(markup(line) for line in lines)


def cautions(lines: Sequence[str]) -> List[str]:
    """What may make the page wrong."""
    if not lines:
        return []
    name = 'caution' if lines[0].startswith('CAUTION') else 'dim'
    return [f'<div class="{name}" role="note">', *(f'<p>{calm(line.strip())}</p>' for line in lines), '</div>']


def state(page: Page) -> List[str]:
    """How the transition stands."""
    done = ' done' if page.complete else ''
    first, *others = page.ending
    return [f'<div class="state{done}">', f'<strong>{calm(first)}</strong>', f'<p>{calm(page.transition)}</p>',
            *(f'<p>{calm(line)}</p>' for line in others), '</div>']


def who_waits(page: Page) -> List[str]:
    """The table of who waited and why."""
    if not page.waiting_title:
        return []
    if not page.waiters.told:
        return ['<h2>Who waits</h2>', f'<p>{calm(page.waiting_title)}</p>']
    columns = [name for place, name in enumerate(COLUMNS) if any(cells(waiter)[place] for waiter in page.waiters.told)]
    kept = [COLUMNS.index(name) for name in columns]
    lines = [f'<h2>{calm(page.waiting_title)}</h2>', '<div class="wide" tabindex="0"><table>',
             f'<caption>{page.waiting_count}</caption>',
             '<thead><tr>' + ''.join(f'<th scope="col">{name}</th>' for name in columns) + '</tr></thead>', '<tbody>']
    for waiter in page.waiters.told:
        found = [cells(waiter)[place] for place in kept]
        lines.append(f'<tr><th scope="row">{found[0]}</th>' + ''.join(f'<td>{cell}</td>' for cell in found[1:]) + '</tr>')
    return [*lines, '</tbody>', '</table></div>', *(f'<p>{markup(line[0].upper() + line[1:])}</p>' for line in others(page.waiters))]


def cells(waiter: Waiter) -> List[str]:
    """The cells of a row, as HTML."""
    where = waiter.place + (f', {waiter.version}, since {waiter.since}' if waiter.since else '') + f'; now {waiter.now}'
    where = markup(where) + (f'<code class="stack">{markup(" < ".join(waiter.stack))}</code>' if waiter.stack else '')
    who = markup(waiter.who) + (f'<br><span class="dim">{markup(waiter.birth)}</span>' if waiter.birth else '')
    refused = '<br>'.join(markup(part) for part in (waiter.refused, waiter.earlier) if part)
    return [who, where, refused, markup(waiter.goes_over), commands(waiter.help), calm(waiter.outcome)]


def commands(text: str) -> str:
    """A text with its commands set apart, so that none is broken between two lines."""
    return re.sub(r'kill -[A-Z]+( \d+)?', lambda found: f'<code class="whole">{found[0]}</code>', markup(text))


def models(page: Page) -> List[str]:
    """The table of the models."""
    lines, title = ['<h2>The models compared</h2>'], calm(page.comparison.title.rstrip(':'))
    if not page.comparison.rows:
        return [*lines, f'<p>{title}</p>']
    return [*lines, '<div class="wide" tabindex="0"><table>', f'<caption>{title}</caption>',
            '<thead><tr><th scope="col">Model</th><th scope="col">How the transition ended</th></tr></thead>', '<tbody>',
            *(f'<tr><th scope="row">{markup(NAMES[row.model])}</th><td>{markup(row.result)}</td></tr>'
              for row in page.comparison.rows),
            '</tbody>', '</table></div>']
