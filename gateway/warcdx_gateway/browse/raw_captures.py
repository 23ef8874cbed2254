"""Captures as they were archived: their payload, status and fields, in the sandbox of payloads."""
import contextlib
import hashlib
import re
from collections.abc import Callable, Generator, Iterator
from dataclasses import dataclass, field, replace
from typing import Optional

from werkzeug.wrappers import Request, Response

from warcdx import Capture
from warcdx.codings import FOREIGN
from warcdx.fetching import is_unmodified
from warcdx.http_messages import HttpHead
from warcdx.record import RecordStream, without_brackets

from ..application import has_tag
from ..collection import Collection
from ..history import Ask
from ..sending import streamed
from ..work import Work
from . import reading, responses
from .places import before, original_of
from .searching import NotShown

MOST_FIELDS = 64  # of an archived head
MOST_HEAD = 6000  # bytes of the fields that are passed on
MOST_HELD = 1 << 20  # bytes of a payload that are read before its answer begins
MOST_LINE = 200  # characters of a status line that is passed on
NOT_MODIFIED = 304
MOST_BEFORE = 10  # captures without a payload that are passed for one that has it
SENT = range(200, 600)  # the statuses that are passed on, but for those that act on clients
ACTING = frozenset((205, 206, NOT_MODIFIED, 305, 401, 407, 408, 416, 417, 421, 425, 426, 429, 431, 499, 511))
ARCHIVED = "X-Archive-Orig-"
# By these fields a browser says that it asks for a window. It sends the first one to hosts with TLS alone.
VARY = ("Sec-Fetch-Dest", "Upgrade-Insecure-Requests")
OTHER_TYPE = "application/octet-stream"
# Types that a browser shows in a window without reading a page of HTML or XML, beside those that these pages show.
_PLAYED = re.compile(r"(?:audio|image|video)/[a-z0-9.-]{1,60}|application/pdf")
_RANGE = re.compile(r"bytes=([0-9]{0,99})-([0-9]{0,99})[, \t]*", re.IGNORECASE)  # the only one of a request
_TOKEN = re.compile(r"[!#$%&'*+.^_`|~0-9A-Za-z-]{1,100}")


@dataclass(frozen=True)
class Window:
    """How a browser shows a capture in a window of its own: a page of HTML at another URL.

    `is_there` is whether this is that URL. `page` gives the pieces of the page with what is put into it.
    """

    url: str
    is_there: bool
    page: Callable[[reading.Read], Generator[bytes, None, None]]


@dataclass
class RawCapture:
    """The answer to a request for a capture. What it has to close goes from `stack` to it.

    With a `window`, a page of HTML is shown there, as far as these pages show one. Other texts are plain ones then.
    `states` are those of what is read: of the capture, and of its original.
    """

    request: Request
    collection: Collection
    ask: Ask
    capture: Capture
    stack: contextlib.ExitStack
    window: Optional[Window]
    states: list[str] = field(default_factory=list)

    def response(self, fields: dict[str, str], location_of: Callable[[str], str]) -> Response:
        """Returns the answer with further fields.

        `location_of` returns the URL of a redirect's target, or no text if there is none.
        """
        try:
            return self._response(fields, location_of)
        except NotShown as error:
            return Response(f"{error}\n", error.status)

    def _response(self, fields: dict[str, str], location_of: Callable[[str], str]) -> Response:
        record = self._opened(self.capture)
        record, head = self._with_payload(record)
        window, read = self.window, reading.Read(record.head, head, record.length, reading.UNREAD)
        status = 200 if head is None else sent_status(head.status or 200)
        target = head.field("Location") if head is not None and 300 <= status < 400 else None
        location = location_of(target) if target is not None else ""
        if window is not None and read.is_html and not window.is_there:
            return responses.redirect(window.url, 302)
        if window is not None and read.is_html and not location:
            return self._shown(window, record, read, fields, status)
        what, coding = coded(self.request, record, self.collection.work)
        headers = {**responses.payload_headers(), **fields, **coding}
        if location:
            headers["Location"] = location
        size = record.stored_length if what == "stored" else None
        pieces = reading.pieces_of(self.stack, record, what, self.collection.work)
        response = streamed(pieces, [*headers.items()], self.collection.work, status, MOST_HELD)
        kind = visible(read.content_type) if window is None else window_type(read)
        response.headers["Content-Type"] = kind or OTHER_TYPE
        if head is not None:
            response.headers.add(ARCHIVED + "Status-Line", visible(head.line)[:MOST_LINE])
        for name, value in archived_fields(head.fields if head else ()):
            response.headers.add(ARCHIVED + name, value)
        response.set_etag(tag_of(what, *self.states))
        return conditional(response, self.request, size)

    def _opened(self, capture: Capture) -> RecordStream:
        self.states.append(reading.state_of(self.collection, capture))
        return self.stack.enter_context(reading.opened(self.collection, capture))

    def _shown(self, window: Window, record: RecordStream, read: reading.Read, fields: dict[str, str], status: int) -> Response:
        """Returns a page with its images and style sheets."""
        payload = reading.shown_payload(record, self.collection.work)
        if payload.fault and not payload.content:
            raise NotShown("The payload can't be unpacked.", payload.fault, 422)
        self.stack.close()
        headers = {**responses.payload_headers(), **fields, "Content-Type": reading.HTML_SHOWN}
        return streamed(window.page(replace(read, payload=payload)), [*headers.items()], self.collection.work, status)

    def _with_payload(self, record: RecordStream) -> tuple[RecordStream, Optional[HttpHead]]:
        """Returns the record with the payload, and the head that is of it.

        A revisit has its own head if it has one, and the payload of its original. What a server has
        said not to be modified is all of the original, also where a crawler has that as a response.
        """
        head, found = record.http, record.head
        url = without_brackets(found.field("WARC-Target-URI") or "")
        is_answer = head is not None and head.status == NOT_MODIFIED
        if found.kind == "revisit":
            original = original_of(self.ask, found)
        elif is_answer:
            original = before(self.ask, url, found)
        else:
            return record, head
        is_whole = is_answer or is_unmodified(found) or head is None
        for _ in range(MOST_BEFORE):
            if original is None:
                break
            record = self._opened(original)
            if record.http is None or record.http.status != NOT_MODIFIED:
                return record, record.http if is_whole else head
            # Its index line doesn't say so, as where the head isn't quite one.
            original = before(self.ask, url, record.head)
        why = "No index has a capture with its payload."
        raise NotShown("The original of the revisit isn't here.", why, 404)


def window_type(read: reading.Read) -> str:
    """Returns the type with which a browser's window gets what isn't a page of HTML, or no text.

    It is made here, since a browser may find another type in what an archive names than is found here.
    """
    if _PLAYED.fullmatch(read.kind):
        return read.kind
    return read.text_type if read.is_text else ""


def sent_status(status: int) -> int:
    """Returns the status with which a capture is sent: one of those that act on no client."""
    if status in ACTING or status not in SENT:
        return status // 100 * 100 if 400 <= status < 600 else 200
    return status


def tag_of(what: str, *states: str) -> str:
    """Returns the tag of a payload that was read of captures in these states, with its codings or without them."""
    return hashlib.sha256(f"{what} {states!r}".encode(errors="replace")).hexdigest()[:20]


def conditional(response: Response, request: Request, size: Optional[int]) -> Response:
    """Returns an answer by the conditions of its request, and by its range if it has `size` bytes, or isn't streamed.

    RFC 9110, sections 13 and 14: only what has status 200 has them, and only GET has a range.
    """
    if response.status_code != 200:
        return response
    tag = response.headers["ETag"]
    # One that is weak, as nginx has made it of compressed bytes, isn't that of a part.
    if not has_tag(request.headers.get("If-Match", "*").replace(f"W/{tag}", ""), tag):
        response.close()
        return Response("The payload isn't the one that the request names.\n", 412)
    if has_tag(request.headers.get("If-None-Match", ""), tag):
        response.close()
        return Response(b"", NOT_MODIFIED, response.headers)
    size = size if response.is_streamed else len(response.get_data())
    if size is None:
        return response
    response.content_length = size
    is_whole = request.method != "GET" or request.headers.get("If-Range") not in (None, tag)
    asked = None if is_whole else _RANGE.fullmatch(request.headers.get("Range", "").strip())
    first, last = asked.groups() if asked else ("", "")
    if not first + last or (first and last and int(first) > int(last)):
        response.accept_ranges = "bytes"
        return response
    start, end = (int(first), min(int(last or size), size - 1)) if first else (max(size - int(last), 0), size - 1)
    if start > end:
        response.close()
        return Response("The range has no byte of the payload.\n", 416, {"Content-Range": f"bytes */{size}"})
    return response.make_conditional({"REQUEST_METHOD": "GET", "HTTP_RANGE": f"bytes={start}-{end}"}, True, size)


def coded(request: Request, record: RecordStream, work: Work) -> tuple[str, dict[str, str]]:
    """Returns which payload a client gets, by its content codings, and the fields that say so.

    The codings stay if the payload has all that its head names, and the client takes them, or one
    can't be undone. Else they are undone, as far as the payload has them, and no field names them.
    """
    names = record.http.content_codings[::-1] if record.http else []
    if not names:
        return "stored", {}
    varied = {"Vary": "Accept-Encoding"}
    accepted = request.accept_encodings
    stays = all(accepted.quality(each.removeprefix("x-")) > 0 for each in names)
    stays = stays or not FOREIGN.keys().isdisjoint(names)
    if stays and record.has_content_codings(reading.bounded(reading.SHOWN, work)):
        return "stored", {**varied, "Content-Encoding": ", ".join(names)}
    return "payload", varied


def archived_fields(fields: tuple[tuple[str, str], ...]) -> Iterator[tuple[str, str]]:
    """Yields the fields of an archived head that can be passed on, as many as clients take."""
    left = MOST_HEAD
    for name, value in fields[:MOST_FIELDS]:
        shown = visible(value)
        left -= len(ARCHIVED) + len(name) + len(shown) + 4
        if left < 0:
            return
        if _TOKEN.fullmatch(name):
            yield name, shown


def visible(value: str) -> str:
    """Returns a value as a field of HTTP may have it, in ASCII. Other characters are left out."""
    return "".join(each for each in value if " " <= each <= "~").strip()
