"""The images and style sheets of a captured page, put into it from the archive.

A browser lets a payload fetch nothing. So each URL of an image or a style sheet becomes a `data:`
URL with the payload of the nearest capture of it. Links to other pages may lead to their captures.
Elements `link` but for style sheets go, and frames are empty, as a browser would connect to a
server for some of them. Other URLs stay as they are, and lead nowhere.
"""
import base64
import functools
import html
import re
import time
from collections.abc import Callable, Generator
from typing import Optional
from urllib.parse import urljoin

from warcdx import Capture, Error

from ..collection import Collection
from ..history import History
from ..refusal import Refusal
from . import reading
from .places import original_of
from .record_page import target_of
from .searching import NotShown
from .tags import ATTRIBUTE, attributes_of, tags_of, value_of

MOST_PARTS = 60  # of a page
MOST_PART = 1 << 20  # bytes of one
MOST_BYTES = 8 << 20  # of all `data:` URLs of a page, each as often as it is used
SECONDS = 3.0  # for all parts of a page
MOST_TAG = 1 << 16  # bytes
MOST_URL = 4000  # characters
PIECE = 1 << 16  # bytes of a page that are read or made between two steps
_STYLE = "text/css"
_IMAGES = frozenset(
    "image/avif image/bmp image/gif image/jpeg image/jpg image/png image/svg+xml image/webp "
    "image/vnd.microsoft.icon image/x-icon".split()
)
_FILLED = frozenset((b"img", b"input", b"link", b"source", b"body", b"table", b"td", b"th"))  # with URLs of images or style sheets
_LINKS = frozenset((b"a", b"area", b"base"))  # with a target, or a URL that leads to another page
_PAGES = ("http://", "https://", "ftp://")
# Elements for which browsers connect to servers, whatever the policy of the page is, and what takes the place of each.
_CONNECTING = re.compile(rb"<(link|iframe|frame)(?=[\s/>])", re.IGNORECASE)
_REPLACED = {b"link": b"<meta>", b"iframe": b"<iframe hidden>", b"frame": b"<frame>"}
_KEPT = ("rel", "href", "media", "title", "type")  # attributes of a style sheet
_IMPORT = re.compile(rb"""@import\s+("[^"\n]*"|'[^'\n]*')""", re.IGNORECASE)

Url = Callable[[str, str], Optional[str]]
Linked = Callable[[str], str]


class Parts:
    """The parts of a page, as `data:` URLs, within limits of number, bytes and time."""

    def __init__(self, collection: Collection, timestamp: str) -> None:
        self._ask = collection.readable
        self._work = collection.work
        self._collection = collection
        self._timestamp = timestamp
        self._made: dict[tuple[str, str], Optional[str]] = {}
        self._left = MOST_BYTES
        self._end = time.monotonic() + SECONDS

    def url(self, url: str, kind: str) -> Optional[str]:
        """Returns the `data:` URL of an image or of a style sheet, or None if there is none."""
        self._work.go_on()
        known = self._made.get((url, kind))
        if known is None and (url, kind) not in self._made:
            if len(self._made) >= MOST_PARTS or time.monotonic() > self._end:
                return None
            self._made[url, kind] = None  # so that a style sheet can't contain itself
            known = self._made[url, kind] = self._make(url, kind)
        if known is None or len(known) > self._left:
            return None
        self._left -= len(known)
        return known

    def _make(self, url: str, kind: str) -> Optional[str]:
        if len(url) > MOST_URL or not url.startswith(("http://", "https://")):
            return None
        try:
            capture = History(self._ask, url=url).nearest(self._timestamp)
            record = capture and reading.read(self._collection, capture)
            if record and record.head.kind == "revisit":
                capture = original_of(self._ask, record.head)
                record = capture and reading.read(self._collection, capture)
        except (Error, NotShown, Refusal):
            return None
        if not record or not record.payload.is_whole:
            return None
        content = record.payload.content
        if kind == _STYLE and record.kind == _STYLE:
            content = styled(content, url, self.url)
        elif kind == _STYLE or record.kind not in _IMAGES:
            return None
        if len(content) > MOST_PART:
            return None
        return f"data:{record.kind};base64,{base64.b64encode(content).decode()}"


def embedded(
    collection: Collection, capture: Capture, record: reading.Read, linked: Optional[Linked] = None
) -> Generator[bytes, None, None]:
    """Yields the payload of a page of HTML with its images and style sheets, in UTF-8.

    `linked` returns the URL to which a link leads. Without it links stay as they are.
    """
    parts = Parts(collection, capture.timestamp)
    base = target_of(record.head) or capture.original
    yield from filled(record.text.encode(), base, parts.url, linked, collection.work.go_on)


def filled(
    page: bytes, base: str, url: Url, linked: Optional[Linked] = None, go_on: Callable[[], None] = lambda: None
) -> Generator[bytes, None, None]:
    """Yields the pieces of a page in which the URLs of images and style sheets are those that `url` returns.

    An attribute `srcset` is left empty, and `target` is left out of links. A policy and whatever
    else a page says in place of HTTP is left out. `go_on` is called before each step.
    """
    page = unconnected(page, go_on)
    made, at, begun, has_base = bytearray(), 0, 0, False
    for tag in tags_of(page, PIECE):
        if tag.end - begun > PIECE or len(made) > PIECE:
            go_on()
            begun = tag.end
        if len(made) > PIECE:
            yield bytes(made)
            made.clear()
        if tag.end - tag.start > MOST_TAG:
            continue
        text = page[tag.start : tag.end]
        if tag.name == b"meta" and "http-equiv" in attributes_of(text):
            made += page[at : tag.start]
            at = tag.end
        elif tag.name in _FILLED or b"url(" in text or linked is not None and tag.name in _LINKS:
            made += page[at : tag.start] + _attributes(tag.name, text, base, url, linked)
            at = tag.end
        if tag.name == b"base" and not has_base and (href := attributes_of(text).get("href")):
            base, has_base = joined(base, href), True
        elif tag.name == b"style" and tag.raw_end > tag.end + 1:
            made += page[at : tag.end] + styled(page[tag.end : tag.raw_end], base, url)
            at = tag.raw_end
    made += page[at:]
    for start in range(0, len(made), PIECE):
        yield bytes(made[start : start + PIECE])


def unconnected(page: bytes, go_on: Callable[[], None] = lambda: None) -> bytes:
    """Returns a page without what makes a browser connect to a server.

    What only seems to be such a tag, as in a comment, is replaced too, since a browser may read it
    otherwise. A tag is replaced and never left out: what is around it could become one.
    """
    made, at, begun = bytearray(), 0, 0
    while (found := _CONNECTING.search(page, at)) and (end := page.find(b">", found.end())) >= 0:
        name, tag = found[1].lower(), page[found.end() : end]
        made += page[at : found.start()] + ((name == b"link" and _style_sheet(tag)) or _REPLACED[name])
        at = end + 1
        if at - begun > PIECE:
            go_on()
            begun = at
    return bytes(made) + page[at:]


def _style_sheet(tag: bytes) -> bytes:
    """Returns the tag of a link to a style sheet and to nothing else, made anew, or no text."""
    if len(tag) > MOST_TAG:
        return b""
    attributes = attributes_of(tag)
    names = set(attributes.get("rel", "").lower().split())
    if "stylesheet" not in names or not names <= {"stylesheet", "alternate"}:
        return b""
    attributes["rel"] = " ".join(sorted(names))
    kept = "".join(f' {name}="{html.escape(attributes[name])}"' for name in _KEPT if name in attributes)
    return f"<link{kept}>".encode(errors="replace")


def _attributes(name: bytes, text: bytes, base: str, url: Url, linked: Optional[Linked]) -> bytes:
    """Returns the attributes of a tag with other URLs. Of those of one name the first one counts."""
    is_sheet, is_link, seen = name == b"link", name in _LINKS, set[bytes]()

    def attribute(found: "re.Match[bytes]") -> bytes:
        field, value = found[1].lower(), found[2] or b""
        made = None
        if field in seen:
            return found[0]
        seen.add(field)
        if field == b"srcset":
            return b'srcset=""'
        if field == b"style":
            return b'style="' + styled(value.strip(b"\"'"), base, url).replace(b'"', b"'") + b'"'
        if field == b"target" and is_link and linked is not None:
            return b""
        if field == b"href" and is_link and linked is not None and name != b"base":
            made = _link(base, value_of(value), linked)
        elif field == b"href" and is_sheet or field in (b"src", b"background") and name in _FILLED:
            made = url(joined(base, value_of(value)), _STYLE if is_sheet else "")
        return found[0] if made is None else field + b'="' + made.encode(errors="replace") + b'"'

    return ATTRIBUTE.sub(attribute, text)


def _link(base: str, href: str, linked: Linked) -> Optional[str]:
    """Returns where a link leads, or None if that isn't another page, as of `#part` or `mailto:`."""
    where = joined(base, href) if href[:1] != "#" else ""
    if not where.lower().startswith(_PAGES):
        return None
    return html.escape(linked(where) + "".join(href.partition("#")[1:]))


def styled(style: bytes, base: str, url: Url) -> bytes:
    """Returns a style sheet in which the URLs of images are those that `url` returns."""

    def imported(found: "re.Match[bytes]") -> bytes:
        sheet = url(joined(base, _named(found[1])), _STYLE)
        return found[0] if sheet is None else b'@import "' + sheet.encode() + b'"'

    style = _IMPORT.sub(imported, style)
    made, at = bytearray(), 0
    while (start := style.find(b"url(", at)) >= 0 and (end := style.find(b")", start)) >= 0:
        value = style[start + 4 : end].strip()
        is_import = style[max(0, start - 20) : start].rstrip().lower().endswith(b"@import")
        found = None
        if len(value) <= MOST_URL and not value.startswith(b"data:"):
            found = url(joined(base, _named(value)), _STYLE if is_import else "")
        made += style[at : start + 4] + (value if found is None else found.encode())
        at = end
    return bytes(made) + style[at:]


def _named(value: bytes) -> str:
    """Returns the URL of a style sheet's `url()`, whose quotes may be references in an attribute."""
    return value_of(value).strip(" \t\r\n\f\"'")


@functools.lru_cache(256)
def joined(base: str, url: str) -> str:
    """Returns an absolute URL without its fragment, or no text if there is none."""
    try:
        return urljoin(base, url).partition("#")[0] if url else ""
    except ValueError:
        return ""
