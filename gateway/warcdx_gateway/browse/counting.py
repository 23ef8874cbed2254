"""How many captures each year and each day has, and how many a URL has."""
import datetime
from collections import Counter
from collections.abc import Iterator
from dataclasses import dataclass, field

from warcdx import Refused

from ..collection import Source
from . import dates
from .searching import Search

MOST = 500_000  # captures that are counted for a page
MOST_OF_URL = 1000  # captures that are counted for a row of a list


@dataclass
class Counts:
    """The captures of each year, and of each day by eight digits of a timestamp.

    `is_whole` is whether all captures were counted. If not, `last` is the timestamp of the last one
    that was.
    """

    years: Counter[str] = field(default_factory=Counter)
    days: Counter[str] = field(default_factory=Counter)
    total: int = 0
    last: str = ""
    is_whole: bool = True

    @property
    def dated(self) -> dict[datetime.date, int]:
        """The captures of each day that is a date."""
        return {day: count for digits, count in self.days.items() if (day := dates.day_of(digits))}

    @property
    def undated(self) -> int:
        """The captures whose timestamp has no date."""
        return self.total - sum(self.dated.values())


def count(source: Source, search: Search, most: int = MOST) -> Counts:
    """Counts the captures that a search selects, or the first `most` of them."""
    days: Counter[str] = Counter()
    total, last = 0, ""
    for timestamps in _timestamps(source, search, most + 1):
        total += len(timestamps)
        if total > most:
            timestamps.pop()
        days.update(each[:8] for each in timestamps)
        last = timestamps[-1] if timestamps else last
    counts = Counts(total=min(total, most), last=last, is_whole=total <= most)
    for day, captures in days.items():
        counts.days[day] += captures
        counts.years[day[:4]] += captures
    return counts


def count_of_url(source: Source, search: Search) -> str:
    """Returns how many captures a search selects, in words if they are many or can't be counted."""
    try:
        count = sum(map(len, _timestamps(source, search, MOST_OF_URL + 1)))
    except Refused:  # the key is longer than a query may be
        return "not counted"
    return f"{count:,}" if count <= MOST_OF_URL else f"more than {MOST_OF_URL:,}"


def _timestamps(source: Source, search: Search, limit: int) -> Iterator[list[str]]:
    """Yields the timestamps of the first captures, some of them each time."""
    return source.timestamps(search.query(), limit)
