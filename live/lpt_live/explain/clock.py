"""Times as a page tells them, and the event at a time of the day."""
import time
from typing import List

from ..errors import Usage
from ..names import Names
from ..times import Times

DAY = 86400
TOLERANCE = 0.05    # seconds: a page tells tenths, and whoever asks for one means it rounded


class Clock(Times):
    """The times of events as a page tells them."""

    def __init__(self, names: Names) -> None:
        super().__init__(names)
        # When the recorder told the time: of other moments it is estimated.
        self.told: List[float] = names.get('marks') or self.seconds

    def apart(self, first: int, last: int) -> float:
        """How far apart the recorder told the time at most, from one event to another."""
        begin, end = self.when(first), self.when(last)
        begin = self.told[0] if begin is None and self.told else begin
        gaps = [after - before for before, after in zip(self.told, self.told[1:])
                if begin is not None and end is not None and after > begin and before < end]
        return max(gaps, default=0.0)

    @staticmethod
    def of_day(seconds: float) -> str:
        """A time of the day, as precise as it is known."""
        seconds = round(seconds, 1)
        return time.strftime('%H:%M:%S', time.localtime(seconds)) + f'{seconds % 1:.1f}'[1:]

    def zone(self) -> str:
        """The name of the zone that the page's times are of."""
        return time.strftime('%Z', time.localtime(self.seconds[0])) if self.seconds else ''

    def event_at(self, word: str) -> int:
        """The event at a time of the day, as 14:03:07.2."""
        parts = word.split(':')
        try:
            hours, minutes, seconds = int(parts[0]), int(parts[1]), float(parts[2]) if len(parts) == 3 else 0.0
            if not (len(parts) in (2, 3) and 0 <= hours < 24 and 0 <= minutes < 60 and 0 <= seconds < 61):
                raise ValueError
        except (ValueError, IndexError):
            raise Usage(f'--at {word}: an event\'s number is wanted, or a time of the day as 14:03:07.2') from None
        if not self.seconds:
            raise Usage(f'--at {word}: the recording tells no times; an event\'s number is wanted')
        first = time.localtime(self.seconds[0])
        wanted = time.mktime((first.tm_year, first.tm_mon, first.tm_mday, hours, minutes, 0, 0, 0, first.tm_isdst)) + seconds
        if wanted < self.seconds[0] - DAY / 2:        # the recording went past midnight
            wanted += DAY
        if not self.seconds[0] - 0.1 <= wanted <= self.seconds[-1] + 0.1:
            raise Usage(f'--at {word}: the recording goes from {self.of_day(self.seconds[0])} to {self.of_day(self.seconds[-1])}')
        return self.last_before(wanted)

    def last_before(self, wanted: float) -> int:
        """The last event at or before a time."""
        low, high = self.prologue, self.marks[-1]
        while low < high:
            middle = (low + high + 1) // 2
            seconds = self.when(middle)
            if seconds is not None and seconds <= wanted + TOLERANCE:
                low = middle
            else:
                high = middle - 1
        return max(low, self.prologue + 1)
