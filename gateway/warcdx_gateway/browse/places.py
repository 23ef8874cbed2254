"""Where records are, as the links to them say it: only what an index names is read."""
import contextlib
import re
from collections.abc import Mapping
from dataclasses import dataclass
from typing import Optional

from warcdx import Capture, Refused, fetching
from warcdx.fetching import REVISIT, is_unmodified, url_of_original
from warcdx.record import Head

from ..collection import Collection
from ..history import MOST, Ask, History, before_time, quoted, resumed
from .dates import recorded
from .markup import Link, link
from .searching import NotShown

_OFFSET = re.compile("[0-9]{1,19}")
_TIMESTAMP = re.compile("[0-9]{14}")


@dataclass(frozen=True)
class Place:
    """The file name of an archive, the offset of a record in bytes, and the timestamp and URL key of the index line with both."""

    filename: str
    offset: int
    timestamp: str
    key: str

    @classmethod
    def of(cls, query: Mapping[str, str]) -> "Place":
        """Returns the place of the query of a link. Raises NotShown."""
        return cls._of(*(query.get(name, "") for name in ("offset", "timestamp", "key", "archive")))

    @classmethod
    def of_text(cls, text: str) -> "Place":
        """Returns the place of `OFFSET TIMESTAMP KEY FILENAME`. Raises NotShown."""
        return cls._of(*(text.split(" ", 3) + [""] * 3)[:4])

    @classmethod
    def _of(cls, offset: str, timestamp: str, key: str, filename: str) -> "Place":
        if not _OFFSET.fullmatch(offset) or int(offset) >= 1 << 63:
            raise NotShown("The offset of the record was refused.", "An offset is a number of bytes below 2^63.")
        if not _TIMESTAMP.fullmatch(timestamp) or not key or " " in key or not filename:
            raise NotShown(
                "The link to the record was refused.", "It has the URL key of the capture, its timestamp of 14 digits and its file name."
            )
        return cls(filename, int(offset), timestamp, key)

    def capture(self, collection: Collection) -> Capture:
        """Returns the line of an index that names the record. Raises NotShown if there is none."""
        place = Capture(self.key, self.timestamp, "-", "-", "-", "-", None, self.offset, self.filename)
        found = capture_at(collection.captures, place)
        if found is None:
            raise NotShown("There is no such record.", "No index of the collection names a record at this place.", 404)
        return found


def place_of(capture: Capture) -> str:
    """Returns the place of a capture as a resume key, which isn't form-encoded yet."""
    return f"{capture.urlkey} {capture.timestamp} {capture.filename} {capture.offset}"


def capture_at(ask: Ask, place: Capture) -> Optional[Capture]:
    """Returns the capture with the key, timestamp, file name and offset of a place, or None."""
    after = before_time(place.urlkey, int(place.timestamp))
    if place.offset:
        after = resumed(place_of(place._replace(offset=place.offset - 1)))
    while True:
        found = ask(f"key={quoted(place.urlkey)}{after}", 1 if place.offset else MOST)
        for each in found:
            if place_of(each) == place_of(place):
                return each
        if place.offset or len(found) < MOST or found[-1].timestamp != place.timestamp:
            return None
        after = resumed(place_of(found[-1]))


def original_of(ask: Ask, head: Head) -> Optional[Capture]:
    """Returns the capture that a revisit points to by its head, or None if no index has it.

    One that was not modified may say nothing of it. Then it is the one before the revisit.
    """
    found = fetching.original_of(lambda query: ask(query, 1), head)
    url = url_of_original(head)
    if found is not None or not url or not is_unmodified(head):
        return found
    with contextlib.suppress(Refused):
        return before(ask, url, head)
    return None


def before(ask: Ask, url: str, head: Head) -> Optional[Capture]:
    """Returns the last capture before a record that has a payload of a URL, or None."""
    timestamp = recorded(head)
    history = History(ask, url=url).where("mimetype", REVISIT, "isnot").where("statuscode", "304", "isnot")
    return history.before(timestamp) if timestamp else None


def text_of(capture: Capture) -> str:
    """Returns the place of a capture as `Place.of_text` reads it."""
    return f"{capture.offset} {capture.timestamp} {capture.urlkey} {capture.filename}"


def record_link(capture: Capture, page: str = "record", **more: str) -> Link:
    """Returns the link to a page of the record of a capture."""
    return link(page, archive=capture.filename, offset=capture.offset, timestamp=capture.timestamp, key=capture.urlkey, **more)
