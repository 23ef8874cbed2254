"""Dates and times as the first digits of a timestamp, which is in UTC."""
import datetime
import re
from typing import Optional, Union

from .reported import refused

Moment = Union[str, int, datetime.date, None]  # a datetime.datetime is a datetime.date
_ISO = (
    r"([0-9]{4})-([0-9]{2})(?:-([0-9]{2})(?:[Tt ]([0-9]{2}):([0-9]{2})(?::([0-9]{2})(?:[.,][0-9]+)?)?" r"([Zz]|[+-][0-9]{2}:?[0-9]{2})?)?)?"
)
_DIGITS = "[0-9]{1,14}"


def stamp_of(name: str, moment: Union[str, int, datetime.date]) -> str:
    """Returns the first digits of the timestamps in a year, a month, a day, or at a time.

    `moment` is a date, a datetime, an ISO text such as `2016-09`, `2016-09-19` or `2016-09-19T17:20:24Z`, or such
    digits as a text or a number. A time without a zone is in UTC. Raises the refusal BadStamp of the parameter `name`.
    """
    if isinstance(moment, datetime.datetime):
        try:
            return _digits_of(moment)
        except OverflowError:  # it isn't in a year from 1 to 9999 in UTC
            raise refused("BadStamp", name) from None
    if isinstance(moment, datetime.date):
        return f"{moment.year:04}{moment.month:02}{moment.day:02}"
    text = str(moment).strip()
    if re.fullmatch(_DIGITS, text):
        return text
    found = _of_iso(text)
    if found is None:
        raise refused("BadStamp", name)
    return found


def _of_iso(text: str) -> Optional[str]:
    parts = re.fullmatch(_ISO, text)
    if not parts:
        return None
    given = [part for part in parts.groups()[:6] if part is not None]
    if len(given) < 4:
        return "".join(given)
    try:
        moment = datetime.datetime(*map(int, given), tzinfo=_zone_of(parts[7]))  # type: ignore[misc,arg-type]
        return _digits_of(moment)[: 2 + 2 * len(given)]
    except (ValueError, OverflowError):
        return None


def _zone_of(text: Optional[str]) -> datetime.timezone:
    if text is None or text in "Zz":
        return datetime.timezone.utc
    minutes = int(text[1:3]) * 60 + int(text[-2:])
    return datetime.timezone(datetime.timedelta(minutes=-minutes if text[0] == "-" else minutes))


def _digits_of(moment: datetime.datetime) -> str:
    if moment.tzinfo is not None:
        moment = moment.astimezone(datetime.timezone.utc)
    day = f"{moment.year:04}{moment.month:02}{moment.day:02}"
    return f"{day}{moment.hour:02}{moment.minute:02}{moment.second:02}"
