"""The paths of these pages."""
import contextlib
import functools
import pathlib
from collections.abc import Callable, Mapping
from typing import Optional

from werkzeug.routing import Rule
from werkzeug.wrappers import Request, Response

from warcdx import Error, Fault, Refused, ReplyTooLate, ReplyTooLong
from warcdx.record import Head

from ..application import Gateway, rule
from ..collection import Collection
from ..refusal import Refusal
from ..sending import streamed
from . import dates, embedding, layout, reading, responses
from .compare_page import compare_page
from .places import Place
from .raw_captures import conditional, tag_of
from .record_page import record_page, target_of
from .search_page import captures_page, search_page
from .searching import NotShown, Search
from .start_page import start_page

ICON = "icon.svg"
PARTS = {"style.css": "text/css; charset=utf-8", ICON: "image/svg+xml"}
WINDOW = "document"  # the value of Sec-Fetch-Dest for a page that gets a window of its own

Page = Callable[[Collection, Request], Response]


def rules() -> list[Rule]:
    """Returns the rules of `/browse`, and of `/COLLECTION/browse/` with what is below it."""
    found = [
        rule("/", _root),
        rule("/browse", _collections),
        rule("/browse/", functools.partial(_redirect, "../browse")),
        rule("/<collection>/browse", functools.partial(_redirect, "browse/")),
    ]
    for name, kind in PARTS.items():
        text = pathlib.Path(__file__).with_name(name).read_bytes()
        found.append(rule(f"/browse/{name}", functools.partial(_part, text, kind)))
        if name == ICON:  # browsers ask there if what they show isn't one of these pages
            found.append(rule("/favicon.ico", functools.partial(_part, text, kind)))
    for name, page in PAGES.items():
        found.append(rule(f"/<collection>/browse/{name}", functools.partial(_answer, page)))
    return found


def _root(gateway: Gateway, request: Request) -> Response:
    """Lists the collections, for a browser as a page and else as text."""
    if request.accept_mimetypes.best_match(("text/plain", "text/html")) == "text/html":
        response = _collections(gateway, request)
    else:
        lines = (f"/{each.name}/cdx\t{each.title}\n" for each in gateway.listed)
        response = Response("".join(lines), content_type="text/plain; charset=utf-8")
    response.vary.add("Accept")
    return response


def _collections(gateway: Gateway, request: Request) -> Response:
    """Lists the collections. One alone is shown itself."""
    if gateway.main.is_alone:
        return responses.redirect(f"{gateway.main.name}/browse/")
    return layout.list_page(gateway.listed)


def _redirect(path: str, gateway: Gateway, request: Request, collection: str = "") -> Response:
    """Sends a browser to the path with or without a last slash: links are relative to one."""
    return responses.redirect(path, 308)


def _part(text: bytes, kind: str, gateway: Gateway, request: Request) -> Response:
    return responses.part(text, kind)


def _answer(page: Page, gateway: Gateway, request: Request, collection: str) -> Response:
    """Returns a page, or one that says why it isn't shown."""
    found, search = gateway.collection(collection), None
    try:
        if page in (search_of, captures_of):
            search = Search.of(request.args)
        return page(found, request)
    except (NotShown, Error, Refusal, MemoryError) as error:
        return layout.refusal_page(found, _not_shown(error, search), search)


def _not_shown(error: Exception, search: Optional[Search]) -> NotShown:
    """Returns in words why a page can't be made."""
    if isinstance(error, NotShown):
        return error
    if isinstance(error, Refused):
        if search:
            return search.refusal(error.name)
        return NotShown("The query was refused.", f"The program says {error.name}.")
    if isinstance(error, Fault):
        why = f"Its fault is {error.name}."
        return NotShown("An index of the collection can't be read.", why, 502)
    if isinstance(error, (ReplyTooLong, MemoryError)):
        return NotShown("The captures can't be shown.", "The lines of the index are too long.", 502)
    if isinstance(error, ReplyTooLate) or isinstance(error, Refusal) and error.name == "TooSlow":
        why = "Search for a shorter time, or for fewer URLs."
        return NotShown("The search takes too long.", why, 503)
    return NotShown("The collection can't be read now.", "Try again in a minute.", 503)


def start(collection: Collection, request: Request) -> Response:
    return start_page(collection)


def search_of(collection: Collection, request: Request) -> Response:
    query = request.args
    return search_page(collection, Search.of(query), query.get("year", ""), query.get("after", ""))


def captures_of(collection: Collection, request: Request) -> Response:
    query = request.args
    return captures_page(collection, Search.of(query), query.get("after", ""))


def compare(collection: Collection, request: Request) -> Response:
    places = [Place.of_text(request.args.get(name, "")) for name in ("first", "second")]
    collection.work.expect_slot()
    captures = [place.capture(collection) for place in places]
    return compare_page(collection, captures)


def record(collection: Collection, request: Request) -> Response:
    capture = Place.of(request.args).capture(collection)
    return record_page(collection, capture)


def payload(collection: Collection, request: Request) -> Response:
    """Answers with a payload for the frame of its record's page.

    A window of its own shows that page instead.
    """
    if request.headers.get("Sec-Fetch-Dest") == WINDOW:
        return responses.redirect(f"record?{request.query_string.decode('latin-1')}")
    capture = Place.of(request.args).capture(collection)
    record = reading.read(collection, capture)
    kind = record.shown_type
    if kind is None:
        why = "Its type isn't one that these pages show. It can be saved."
        raise NotShown("The payload isn't shown.", why, 415)
    headers = {**responses.payload_headers(), "Content-Type": kind}
    if record.is_html:
        return streamed(embedding.embedded(collection, capture, record), [*headers.items()], collection.work)
    return Response(record.payload.content, 200, headers)


def download(collection: Collection, request: Request) -> Response:
    """Answers with a record or its payload, as a file to save, piece by piece."""
    what, place = request.args.get("what", "record"), Place.of(request.args)
    if what not in ("record", "payload"):
        raise NotShown("The download was refused.", "A record or its payload can be saved.")
    capture = place.capture(collection)
    state = reading.state_of(collection, capture)
    with contextlib.ExitStack() as stack:
        record = stack.enter_context(reading.opened(collection, capture))
        size = record.size if what == "record" else None
        if what == "payload" and not (record.http and record.http.content_codings):
            size = record.stored_length
        headers = {**responses.attachment_headers(_file_name(record.head, place, what)), "Content-Type": "application/octet-stream"}
        response = streamed(reading.pieces_of(stack, record, what, collection.work), [*headers.items()], collection.work)
    response.set_etag(tag_of(what, state))
    return conditional(response, request, size)


def _file_name(head: Head, place: Place, what: str) -> str:
    """Returns a name for the file: that of the archive with the offset, or the end of the URL."""
    if what == "record":
        return f"{place.filename}-{place.offset}.warc"
    path = target_of(head).partition("?")[0].partition("#")[0].rstrip("/")
    timestamp = dates.recorded(head) or str(place.offset)
    return f"{timestamp}-{responses.file_name(path)}"


PAGES: Mapping[str, Page] = {
    "": start,
    "search": search_of,
    "captures": captures_of,
    "compare": compare,
    "record": record,
    "payload": payload,
    "download": download,
}
