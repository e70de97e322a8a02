"""Progress of long work, on standard error: nothing of work that ends soon, then a line every few seconds."""
import sys
import time
from typing import Iterable, Iterator, Sequence, TypeVar

QUIET = 2.0         # seconds
T = TypeVar('T')


def say(text: str) -> None:
    """A line on standard error."""
    print(text, file=sys.stderr, flush=True)


def over(items: Sequence[T], what: str) -> Iterator[T]:
    """The items; where they take long, how far they are: `what: 40%`."""
    return _told(items, len(items), what)


def _told(items: Iterable[T], total: int, what: str) -> Iterator[T]:
    last = time.monotonic()
    for done, item in enumerate(items):
        if not done % 1000:
            now = time.monotonic()
            if now - last > QUIET:
                last = now
                say(f'{what}: {100 * done // total}%')
        yield item
