"""The captures of one URL, found by their time without reading all of them."""
import calendar
from collections.abc import Callable, Iterable
from datetime import datetime, timezone
from typing import Optional
from urllib.parse import quote_plus

from warcdx import Capture

# Returns the first captures that a query selects, in order, at most as many as it is told.
Ask = Callable[[str, int], list[Capture]]

FIRST, LAST = 0, 10**14 - 1  # timestamps as numbers
FIRST_MOMENT = "00000101000000"
MOST = 200  # captures that are read at once
# A file name and an offset that are after all others.
LAST_PLACE = "\U0010ffff 9223372036854775807"


class History:
    """The captures of one URL or URL key that have a date, by a few short queries.

    One query is enough if there are fewer than MOST captures. Timestamps have 14 digits. Of more
    than MOST captures of one second, the last may be another one.
    """

    def __init__(self, ask: Ask, *, url: str = "", key: str = "") -> None:
        self.ask = ask
        self._start: Optional[list[Capture]] = None  # the first captures
        target = f"key={quoted(key)}" if key else f"url={quoted(url)}"
        self._target = f"{target}&matchType=exact"

    def where(self, field: str, value: str, test: str = "is") -> "History":
        """Returns the history of the captures with a value, or with `isnot` of those with another one."""
        found = History(self.ask)
        found._target = f"{self._target}&{test}={field}:{quoted(value)}"
        return found

    def first(self, since: int = FIRST) -> Optional[Capture]:
        """Returns the first capture at a time or after it."""
        found = self._dated(since, LAST)
        return found[0] if found else None

    def last(self, until: int = LAST) -> Optional[Capture]:
        """Returns the last capture at a time or before it.

        It halves the times that the capture may have, until few captures are in them.
        """
        best, low, start = None, FIRST, FIRST
        while low <= until:
            found = self._between(start, until)
            if found:
                best = next((each for each in reversed(found) if each.datetime), best)
                low = int(found[-1].timestamp)
                if len(found) < MOST or start == until:
                    break
            else:
                until = start - 1
            start = (low + until + 1) // 2
        return best

    def before(self, timestamp: str) -> Optional[Capture]:
        return self.last(int(timestamp) - 1)

    def after(self, timestamp: str) -> Optional[Capture]:
        return self.first(int(timestamp) + 1)

    def nearest(self, timestamp: str, original: str = "") -> Optional[Capture]:
        """Returns the capture nearest to a time, and of two that are as near the earlier one.

        Of those at the time, it is that of this URL, or else the first one.
        """
        if exact := self._dated(int(timestamp), int(timestamp)):
            return next((each for each in exact if each.original == original), exact[0])
        return nearest_of((self.before(timestamp), self.after(timestamp)), timestamp)

    def page(self, timestamp: str, passed: int, most: int) -> tuple[list[Capture], Optional[Capture], int]:
        """Returns the first captures from a time on, about `most`, after those of it that were passed.

        Then the capture that follows them, and how many of its second are before it: those of one
        second are on one page if there are no more than `most`.
        """
        found = self._dated(int(timestamp), LAST, passed + most + 1)[passed:]
        if len(found) <= most:
            return found, None, 0
        following = found.pop()
        kept = [each for each in found if each.timestamp != following.timestamp]
        if kept:
            return kept, found[len(kept)] if len(kept) < len(found) else following, 0
        return found, following, most + (passed if following.timestamp == timestamp else 0)

    def _dated(self, low: int, high: int, most: int = MOST) -> list[Capture]:
        return [each for each in self._between(low, high, most) if each.datetime]

    def _between(self, low: int, high: int, most: int = MOST) -> list[Capture]:
        if self._start is None:
            self._start = self.ask(self._target, MOST)
        found = self._start
        if len(found) == MOST and low <= high:
            # A resume key is searched for, while all captures before `from` are read.
            after = before_time(found[0].urlkey, low)
            found = self.ask(f"{self._target}{after}", most)
        return [each for each in found if low <= int(each.timestamp) <= high][:most]


def nearest_of(captures: Iterable[Optional[Capture]], timestamp: str) -> Optional[Capture]:
    """Returns the capture nearest to a time, and of two that are as near the earlier one."""
    moment = seconds_of(timestamp)
    found = [each for each in captures if each is not None]
    found.sort(key=lambda each: (abs(seconds_of(each.timestamp) - moment), each.timestamp))
    return found[0] if found else None


def before_time(key: str, timestamp: int) -> str:
    """Returns the parameter with which a query begins at the captures of a key from a time on."""
    return resumed(f"{key} {timestamp - 1:014} {LAST_PLACE}") if timestamp > 0 else ""


def resumed(place: str) -> str:
    return f"&resumeKey={quoted(place)}"


def present_moment() -> str:
    return f"{datetime.now(timezone.utc):%Y%m%d%H%M%S}"


def first_moment(digits: str) -> str:
    """Returns the first timestamp that begins with these digits."""
    return digits + FIRST_MOMENT[len(digits) :]


def last_moment(digits: str) -> str:
    """Returns the last timestamp that begins with these digits, and is a date if one does."""
    full = digits.ljust(14, "9")
    year, month = full[:4], clamped(full[4:6], 1, 12)
    day = clamped(full[6:8], 1, calendar.monthrange(max(int(year), 1), month)[1])
    clock = [clamped(full[8:10], 0, 23), clamped(full[10:12], 0, 59), clamped(full[12:], 0, 59)]
    made = year + "".join(f"{part:02}" for part in (month, day, *clock))
    return digits + made[len(digits) :]


def seconds_of(timestamp: str) -> int:
    """Returns the seconds from 1970 to a timestamp. What isn't a date is the nearest one."""
    year, month = max(int(timestamp[:4]), 1), clamped(timestamp[4:6], 1, 12)
    day = clamped(timestamp[6:8], 1, calendar.monthrange(year, month)[1])
    hour, minute = clamped(timestamp[8:10], 0, 23), clamped(timestamp[10:12], 0, 59)
    return calendar.timegm((year, month, day, hour, minute, clamped(timestamp[12:14], 0, 59)))


def clamped(digits: str, least: int, most: int) -> int:
    return min(max(int(digits), least), most)


def quoted(value: str) -> str:
    return quote_plus(value, errors="replace")
