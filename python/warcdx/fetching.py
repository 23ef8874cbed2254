"""From a URL and a time to the capture and the record that a reader of the page wants."""
import calendar
import contextlib
import datetime
import functools
import re
from collections.abc import Callable, Iterable, Iterator
from typing import Optional
from urllib.parse import quote_plus

from .collection import Collection
from .errors import Refused
from .query import Capture
from .record import Head, RecordStream, without_brackets
from .stamps import stamp_of

REVISIT = "warc/revisit"
Ask = Callable[[str], Iterable[Capture]]  # gives the first capture that a query selects
_NOTHING = "3I42H3S6NNFQ2MSVX7XZKYAYSCX5QBYJ"  # the digest of no bytes
_NOT_DIGITS = re.compile("[^0-9]")
_SHA1 = re.compile("sha1:", re.IGNORECASE)


def moment_of(text: str) -> datetime.datetime:
    """Returns the time in UTC of a date as `Index.captures` takes it. What it leaves out is filled to the end of its period.

    So `2016` is the last second of that year. What is nearest to it may be a capture of early 2017. Raises ValueError if there
    is no such time.
    """
    try:
        stamp = stamp_of("at", text)
    except Refused as refused:
        raise ValueError(text) from refused
    if len(stamp) < 4 or len(stamp) % 2:
        raise ValueError(text)
    year, month = int(stamp[:4]), int(stamp[4:6] or 12)
    day = int(stamp[6:8] or calendar.monthrange(year, month)[1])
    hour, minute, second = int(stamp[8:10] or 23), int(stamp[10:12] or 59), int(stamp[12:14] or 59)
    return datetime.datetime(year, month, day, hour, minute, second, tzinfo=datetime.timezone.utc)


def nearest(captures: Iterable[Capture], moment: Optional[datetime.datetime] = None) -> Optional[Capture]:
    """Returns the capture nearest to a time, of two as near the earlier one; without a time the latest. None if there is none.

    A capture whose timestamp is no date is returned only if there is no other.
    """
    best, distance = None, None
    for capture in captures:
        when = capture.datetime
        if when is None:
            best = best or capture
        elif moment is None:
            best, distance = capture, datetime.timedelta()
        elif distance is None or abs(when - moment) < distance:
            best, distance = capture, abs(when - moment)
    return best


def is_unmodified(head: Head) -> bool:
    """Returns whether a server has said that nothing was changed (ISO 28500:2017, 6.7.3)."""
    profile = (head.field("WARC-Profile") or "").rstrip("/>")
    return head.kind == "revisit" and profile.endswith("server-not-modified")


def url_of_original(head: Head) -> str:
    """Returns the URL that the head of a revisit refers to, or else its own, or no text."""
    return without_brackets(head.field("WARC-Refers-To-Target-URI") or "") or head.url or ""


def original_of(ask: Ask, head: Head) -> Optional[Capture]:
    """Returns the capture whose payload a revisit stands for, by the head of its record, or None if no index has it.

    It is one of the URL that the head refers to, or else of its own, with the digest and the time if the head has them, or else with
    the digest alone. One that was not modified may have the digest of no bytes: then it is that of the time.
    """
    url = url_of_original(head)
    given = head.field("WARC-Payload-Digest") or ""
    digest = _SHA1.sub("", given, count=1)
    is_known = digest and not (is_unmodified(head) and digest == _NOTHING)
    spellings = dict.fromkeys((digest, given)) if is_known else {}  # other programs write its name into indexes too
    time = _NOT_DIGITS.sub("", head.field("WARC-Refers-To-Date") or "")[:14]
    if not url:
        return None
    at = f"&from={time}&to={time}" if len(time) == 14 else ""
    same = [f"&is=digest:{quote_plus(each, errors='surrogateescape')}" for each in spellings]
    asked = f"url={quote_plus(url, errors='surrogateescape')}&matchType=exact&isnot=mimetype:{REVISIT}"
    with contextlib.suppress(Refused):  # as for a URL that is none
        for conditions in [at + each for each in same or [""] if at] + same:
            for capture in ask(asked + conditions):
                return capture
    return None


@contextlib.contextmanager
def opened_page(collection: Collection, capture: Capture) -> Iterator[Optional[RecordStream]]:
    """Opens the record with the payload of a capture, which for a revisit is its original's, or yields None if no index has that.

    Raises as `Collection.stream` does.
    """
    with contextlib.ExitStack() as stack:
        record = stack.enter_context(collection.stream(capture))
        if record.head.kind != "revisit":
            yield record
            return
        original = original_of(functools.partial(collection.index.captures, limit=1), record.head)
        page = None if original is None else stack.enter_context(collection.stream(original))
        yield page if page and page.head.kind != "revisit" else None  # indexes may name revisits otherwise
