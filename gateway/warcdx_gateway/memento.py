"""Memento (RFC 7089): captures of a URL by their time, in lists, and as they were archived."""
import contextlib
import functools
import re
from collections.abc import Callable
from datetime import datetime, timezone
from typing import Optional
from urllib.parse import quote, unquote

from werkzeug.exceptions import NotFound
from werkzeug.http import http_date, parse_date
from werkzeug.routing import Rule
from werkzeug.wrappers import Request, Response

from warcdx import Capture, Refused

from .application import Gateway, root_of, rule, sent_path
from .browse import embedding, responses
from .browse.raw_captures import VARY, RawCapture, Window
from .history import MOST, History, last_moment, quoted
from .parameters import is_number

LINK_FORMAT = "application/link-format"
RAW = "id_"  # the mark of a capture as it was archived
# The values of Sec-Fetch-Dest for what is shown in a window or in a frame.
WINDOWS = ("document", "iframe", "frame", "embed", "object")
VARIED = {"Vary": ", ".join(VARY)}
MOST_MEMENTOS = 5000  # of a page of a TimeMap
MOST_LINKS = 6000  # bytes of the field Link
# What stays as it is in a URL of a link: the characters of RFC 3986.
_SAFE = "%:/?#[]@!$&'()*+,;=-._~"
_ENCODED = re.compile(r"[A-Za-z][A-Za-z0-9+.-]*%3A", re.IGNORECASE)
_ONE_SLASH = re.compile(r"(https?|ftp):/(?!/)", re.IGNORECASE)
_PAGE = re.compile(r"([0-9]{14})(?:-([0-9]{1,6}))?/(.*)", re.DOTALL)
# A replayed page of other servers: it is answered by the raw capture, or by a calendar.
_REPLAYED = re.compile(r"([0-9]{1,14})(?:[a-z]{2}_)?/(.+)", re.DOTALL)
_CALENDAR = re.compile(r"([0-9]{0,14})\*/(.+)", re.DOTALL)
_DATE = re.compile("(Mon|Tue|Wed|Thu|Fri|Sat|Sun)(, [0-9]{2} [A-Z][a-z]{2} [0-9]{4} [0-9:]{8} GMT)")


def rules() -> list[Rule]:
    """Returns the rules of these paths, of which `/web` is the main collection."""
    paths: dict[str, Callable[..., Response]] = {
        "timegate/": time_gate,
        "timemap/link/": time_map,
        "<timestamp>id_/": raw_capture,
        "": time_gate,
    }
    return [
        rule(f"/{front}/{path}<path:url>", functools.partial(_sent, handler, 1 + path.count("/")))
        for front in ("web", "<collection>")
        for path, handler in paths.items()
    ]


def _sent(
    handler: Callable[..., Response], segments: int, gateway: Gateway, request: Request, url: str, collection: str = "", **values: str
) -> Response:
    """Answers by a handler of the URL behind the first segments of the path, as it was sent."""
    return handler(gateway, request, collection, url_of(request, segments), **values)


class Resource:
    """A URL of a collection, whose paths begin with `root`, and the history of its captures."""

    def __init__(self, gateway: Gateway, request: Request, collection: str, url: str) -> None:
        """Takes a URL as it was sent. Raises NotFound if it isn't one."""
        if _ENCODED.match(url):
            url = unquote(url)
        url = _ONE_SLASH.sub(r"\1://", url, count=1)
        host = url.partition("/")[0]
        if ":" not in host and "." not in host and host != "localhost":
            raise NotFound()
        has_scheme = re.match(r"[A-Za-z][A-Za-z0-9+.-]*://", url)
        self.url, self.original = url, url if has_scheme else f"http://{url}"
        self.root = f"{root_of(request)}/{collection or 'web'}"
        self.collection = gateway.collection(collection)
        self.history = History(self.collection.readable, url=url)

    def memento(self, capture: Capture, mark: str = "id_") -> str:
        """Returns the URL of a capture as it was archived. The line of an index may have no URL."""
        url = capture.original if ":" in capture.original else self.original
        return f"{self.root}/{capture.timestamp}{mark}/{escaped(url)}"

    def time_map(self, timestamp: str = "", passed: int = 0) -> str:
        start = f"{timestamp}-{passed}/" if passed else f"{timestamp}/" if timestamp else ""
        return f"{self.root}/timemap/link/{start}{escaped(self.original)}"

    def time_gate(self) -> str:
        return f"{self.root}/timegate/{escaped(self.original)}"

    def links(self, chosen: Capture) -> str:
        """Returns the field Link of a capture, or of a TimeGate that has chosen it."""
        found = [
            link(self.original, rel="original"),
            link(self.time_gate(), rel="timegate"),
            link(self.time_map(), rel="timemap", type=LINK_FORMAT),
        ]
        history, at = self.history, chosen.timestamp
        relations: dict[Capture, list[str]] = {}
        for capture, relation in (
            (history.first(), "first"),
            (history.before(at), "prev"),
            (chosen, ""),
            (history.after(at), "next"),
            (history.last(), "last"),
        ):
            if capture is not None:
                relations.setdefault(capture, []).extend([relation] if relation else [])
        for capture, names in relations.items():
            found.append(self.memento_link(capture, *names))
        if sum(map(len, found)) > MOST_LINKS:
            del found[3:]
        return ", ".join(found) if sum(map(len, found)) <= MOST_LINKS else ""

    def memento_link(self, capture: Capture, *relations: str) -> str:
        relation = " ".join((*relations, "memento"))
        return link(self.memento(capture), rel=relation, datetime=date_of(capture))


def url_of(request: Request, segments: int) -> str:
    """Returns the URL behind the first segments of the path, as it was sent and with its query."""
    parts = sent_path(request).encode("latin-1", "replace").decode(errors="replace").split("/", segments + 1)
    return parts[segments + 1] if len(parts) == segments + 2 else ""


def time_gate(gateway: Gateway, request: Request, collection: str, sent: str) -> Response:
    """Sends a client to the capture that is nearest to its time, or to the last one without a time.

    RFC 7089, sections 4.2.1 and 4.5.3: a datetime that can't be read has status 400.
    """
    if found := _REPLAYED.fullmatch(sent):
        if is_window(request):
            return capture_of(gateway, request, collection, found[2], found[1], "")
        resource = Resource(gateway, request, collection, found[2])
        target = f"{resource.root}/{found[1]}id_/{escaped(resource.url)}"
        return redirect(target, VARIED)
    if found := _CALENDAR.fullmatch(sent):
        resource = Resource(gateway, request, collection, found[2])
        year = f"&year={found[1][:4]}" if len(found[1]) >= 4 else ""
        target = f"/{resource.collection.name}/browse/search?url={quoted(resource.url)}{year}"
        return redirect(root_of(request) + target, {})
    resource = Resource(gateway, request, collection, sent)
    vary = {"Vary": "accept-datetime"}
    wanted = request.headers.get("Accept-Datetime")
    moment = None if wanted is None else timestamp_of(wanted)
    if wanted is not None and moment is None:
        text = "refused BadDatetime: Accept-Datetime: it is a date as in RFC 7089, section 2.1.1\n"
        return Response(text, 400, vary)
    history = resource.history
    chosen = history.last() if moment is None else history.nearest(moment)
    if chosen is None:
        return Response("there is no capture of this URL\n", 404, vary)
    return redirect(resource.memento(chosen), {**vary, "Link": resource.links(chosen)})


def time_map(gateway: Gateway, request: Request, collection: str, sent: str) -> Response:
    """Lists the captures of a URL, a page at a time (RFC 7089, section 5).

    A page begins at the time that is before the URL. A number behind it is how many captures of
    this second are on pages before. A page links the next one.
    """
    found = _PAGE.fullmatch(sent)
    if found is None:
        return time_map_of(gateway, Resource(gateway, request, collection, sent))
    resource = Resource(gateway, request, collection, found[3])
    return time_map_of(gateway, resource, found[1], int(found[2] or 0))


def time_map_of(gateway: Gateway, resource: Resource, start: str = "", passed: int = 0) -> Response:
    page = resource.history.page(start or "0" * 14, passed, MOST_MEMENTOS)
    captures, following, before = page
    if not captures:
        return Response("there is no capture of this URL\n", 404)
    first, last = captures[0], captures[-1]
    times = {"from": date_of(first), "until": date_of(last)}
    lines = [
        link(resource.original, rel="original"),
        link(resource.time_map(start, passed), rel="self", type=LINK_FORMAT, **times),
        link(resource.time_gate(), rel="timegate"),
    ]
    if following is not None:
        next_map = resource.time_map(following.timestamp, before)
        begin = {"from": date_of(following)}
        lines.append(link(next_map, rel="timemap", type=LINK_FORMAT, **begin))
    for number, capture in enumerate(captures):
        if number % MOST == 0:
            gateway.work.go_on()
        relations = ["first"] if capture is first and not start else []
        relations += ["last"] if capture is last and following is None else []
        lines.append(resource.memento_link(capture, *relations))
    return Response(",\n".join(lines) + "\n", content_type=LINK_FORMAT)


def raw_capture(gateway: Gateway, request: Request, collection: str, sent: str, timestamp: str) -> Response:
    """Answers with a capture as it was archived, or sends a client to the nearest one."""
    if not (is_number(timestamp) and len(timestamp) <= 14):
        raise NotFound()
    return capture_of(gateway, request, collection, sent, timestamp, RAW)


def is_window(request: Request) -> bool:
    """Returns whether a browser asks for what it shows in a window or in a frame."""
    named, navigates = (request.headers.get(name) for name in VARY)
    return named in WINDOWS if named is not None else navigates == "1"


def capture_of(gateway: Gateway, request: Request, collection: str, sent: str, timestamp: str, mark: str) -> Response:
    """Answers with a capture, with or without the mark of one that is as it was archived."""
    resource = Resource(gateway, request, collection, sent)
    capture = resource.history.nearest(last_moment(timestamp), resource.original)
    if capture is None:
        raise NotFound("there is no capture of this URL")
    if capture.timestamp != timestamp:
        return redirect(resource.memento(capture, mark), VARIED)
    window = None
    if is_window(request):
        page = functools.partial(
            embedding.embedded, resource.collection, capture, linked=lambda url: f"{resource.root}/{capture.timestamp}/{escaped(url)}"
        )
        window = Window(resource.memento(capture, ""), mark == "", page)
    own = {"Memento-Datetime": date_of(capture)}
    if links := resource.links(capture):
        own["Link"] = links
    with contextlib.ExitStack() as stack:
        ask = resource.history.ask
        raw = RawCapture(request, resource.collection, ask, capture, stack, window)
        response = raw.response(own, functools.partial(_capture_of, resource, capture))
    response.vary.update(VARY)
    return response


def _capture_of(resource: Resource, capture: Capture, target: str) -> str:
    """Returns the URL of the capture of a redirect's target, or no text if there can't be one.

    A redirect to another spelling of its URL, such as https, has the same URL key. It leads to a
    capture of that spelling, and never to itself.
    """
    target, at = target.strip(), capture.timestamp
    url, fragment = embedding.joined(capture.original, target), "".join(target.partition("#")[1:])
    with contextlib.suppress(Refused):  # it is no URL
        if url.startswith(("http://", "https://")):
            history = History(resource.history.ask, url=url)
            if history.nearest(at, url) != capture:
                return f"{resource.root}/{at}id_/{escaped(url + fragment)}"
            other = history.where("original", url).nearest(at)
            return resource.memento(other) if other and other != capture else ""
    return ""


def redirect(url: str, headers: dict[str, str]) -> Response:
    return Response(b"", 302, {**responses.COMMON, **headers, "Location": url})


def timestamp_of(date: str) -> Optional[str]:
    """Returns the timestamp of a date of Accept-Datetime, or None (RFC 7089, section 2.1.1)."""
    found = _DATE.fullmatch(date.strip())
    moment = parse_date(found[0]) if found else None
    if found is None or moment is None or http_date(moment)[3:] != found[2]:
        return None
    return f"{moment:%Y%m%d%H%M%S}".rjust(14, "0")


def date_of(capture: Capture) -> str:
    """Returns the time of a capture as HTTP writes it."""
    return http_date(capture.datetime or datetime(1, 1, 1, tzinfo=timezone.utc))


def link(url: str, **attributes: str) -> str:
    values = "".join(f'; {name}="{value}"' for name, value in attributes.items())
    return f"<{escaped(url)}>{values}"


def escaped(url: str) -> str:
    return quote(url, safe=_SAFE, errors="replace")
