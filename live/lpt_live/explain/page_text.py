"""A page as text."""
from typing import List

from .models import NAMES
from .naming import plural
from .page import Page
from .waiting import Waiter, Waiters

NAMED = 8           # of those that are only named


def text_of(page: Page, recorded: bool) -> str:
    """The page's text."""
    lines = [page.title, *page.head, *page.cautions, '', page.transition, *page.ending, '']
    if page.waiting_title:
        count = f': {page.waiting_count}' if page.waiting_title.startswith('WHO') else ''
        lines.append(page.waiting_title + count)
        for waiter in page.waiters.told:
            lines += of_recording(waiter) if recorded else of_trace(waiter)
        lines += [f'  {line}' for line in others(page.waiters)] + ['']
    if page.what_if:
        lines += [page.what_if, '']
    lines += [page.comparison.title, *(f'  {NAMES[row.model]:26} {row.result}' for row in page.comparison.rows), '']
    if page.timeline:
        lines += [*page.timeline, '']
    return '\n'.join(lines).rstrip('\n') + '\n'


def others(waiters: Waiters) -> List[str]:
    """The groups that are only named."""
    return [f'and {len(names)} {what}: {", ".join(names[:NAMED])}{" .." if len(names) > NAMED else ""}' for names, what in (
        (waiters.further, 'more'), (waiters.unseen, 'at which no check has looked yet')) if names]


def of_recording(waiter: Waiter) -> List[str]:
    """A waiter of a recording: its name, then what is known of it."""
    lines = [f'  {waiter.who}', *(f'    {part}' for part in [waiter.birth] if part)]
    refused = f'; {waiter.refused}' if waiter.refused else ''
    if waiter.function:
        lines.append(f'    {waiter.place}, {waiter.version}, since {waiter.since}{refused}')
    else:
        lines.append(f'    {waiter.place}{refused}; now {waiter.now}')
    if waiter.earlier:
        lines.append(f'    {waiter.earlier}')
    if waiter.function and waiter.place.startswith('was'):
        lines.append(f'    it has left {waiter.function}; now {waiter.now}')
    if waiter.function and waiter.stack:
        lines.append(f'    stack: {" < ".join(waiter.stack[:6])}{" .." if len(waiter.stack) > 6 else ""}')
    lines.append(f'    goes over {waiter.goes_over}')
    return lines + [f'    {label}{part}' for label, part in (('to help: ', waiter.help), ('', waiter.outcome)) if part]


def of_trace(waiter: Waiter) -> List[str]:
    """A waiter of a plain trace, in one sentence: task 102 is in pipe_read (line 19), refused at events 12 to 23."""
    told = f'{waiter.who}{": " if waiter.place.startswith("task ") else " "}{waiter.place}'
    told += f' ({waiter.since.split(" (")[0]})' if waiter.function else ''
    lines = [f'  {told}' + (f', {waiter.refused}' if waiter.refused else '')]
    lines += [f'    {part}' for part in (waiter.birth, waiter.earlier) if part]
    lines.append(f'    now {waiter.now}' + (f'; stack: {" < ".join(waiter.stack)}' if waiter.stack else ''))
    lines.append(f'    goes over {waiter.goes_over}')
    return lines + ([f'    {waiter.outcome}'] if waiter.outcome else [])


def nothing(case_title: str, events: int) -> str:
    """The page of a case without a transition."""
    return f'{case_title}: {plural(events, "event")}, no transition in it.\n'
