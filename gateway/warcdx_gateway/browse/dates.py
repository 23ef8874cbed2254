"""Timestamps of captures, as dates in words. Their fourteen digits need not be a date."""
import datetime
import re
from typing import Optional

from warcdx.record import Head

from ..history import first_moment

MONTHS = (
    "January", "February", "March", "April", "May", "June",
    "July", "August", "September", "October", "November", "December",
)  # fmt: skip
DAYS = ("Monday", "Tuesday", "Wednesday", "Thursday", "Friday", "Saturday", "Sunday")
_TYPED = re.compile(r"(\d{4})(?:-?(\d\d)(?:-?(\d\d))?)?", re.ASCII)
_TIMESTAMP = re.compile(r"\d{14}", re.ASCII)


def day_of(digits: str) -> Optional[datetime.date]:
    """Returns the day of the first eight digits, or None if they are no date."""
    try:
        return datetime.date(int(digits[:4]), int(digits[4:6]), int(digits[6:8]))
    except ValueError:
        return None


def time_of(timestamp: str) -> Optional[datetime.datetime]:
    """Returns the time of a timestamp in UTC, or None if it is no time. A leap second is none."""
    try:
        found = datetime.datetime.strptime(timestamp, "%Y%m%d%H%M%S") if _TIMESTAMP.fullmatch(timestamp) else None
    except ValueError:
        return None
    return found and found.replace(tzinfo=datetime.timezone.utc)


def day_in_words(day: datetime.date) -> str:
    return f"{day.day} {MONTHS[day.month - 1]} {day.year}"


def full_day(day: datetime.date) -> str:
    return f"{DAYS[day.weekday()]}, {day_in_words(day)}"


def in_words(timestamp: str) -> str:
    """Returns `3 March 2016, 09:34:31`, or the digits if the timestamp is no time."""
    time = time_of(timestamp)
    return f"{day_in_words(time)}, {time:%H:%M:%S}" if time else f"{timestamp} (not a date)"


def machine_time(timestamp: str) -> Optional[str]:
    """Returns the value of the attribute `datetime` of HTML, or None if it is no time."""
    time = time_of(timestamp)
    return f"{time:%Y-%m-%dT%H:%M:%SZ}" if time and time.year >= 1000 else None


def timestamp_of(date: str) -> Optional[str]:
    """Returns the timestamp of a value of WARC-Date, whose last parts may be absent, or None."""
    digits = re.sub(r"\D", "", date.partition(".")[0])
    filled = first_moment(digits)
    return filled if len(digits) >= 4 and _TIMESTAMP.fullmatch(filled) else None


def recorded(head: Head) -> Optional[str]:
    """Returns the timestamp of a record, or None if its WARC-Date is none."""
    return timestamp_of(head.field("WARC-Date") or "")


def digits_of(typed: str) -> str:
    """Returns the first digits of a timestamp for a year, month or day, or what was typed."""
    found = _TYPED.fullmatch(typed.strip())
    return "".join(part for part in found.groups() if part) if found else typed.strip()


def typed(digits: str) -> str:
    """Returns the first digits of a timestamp as they may be typed: `2016-03` for `201603`."""
    if len(digits) not in (4, 6, 8) or not digits.isdigit():
        return digits
    return "-".join(part for part in (digits[:4], digits[4:6], digits[6:]) if part)


def period_in_words(digits: str) -> str:
    """Returns `2016`, `March 2016` or `3 March 2016` for 4, 6 or 8 digits of a timestamp."""
    if len(digits) == 8 and (day := day_of(digits)):
        return day_in_words(day)
    if len(digits) == 6 and 1 <= int(digits[4:]) <= 12:
        return f"{MONTHS[int(digits[4:]) - 1]} {int(digits[:4])}"
    return digits


def many(count: int, one: str, more: str = "") -> str:
    """Returns a count with its noun: `1 capture`, `1,234 captures`."""
    return f"{count:,} {one if count == 1 else more or one + 's'}"
