"""Lists of captures and of addresses, a page at a time."""
import functools
from dataclasses import dataclass, replace
from typing import Optional

from warcdx import Capture
from warcdx.fetching import REVISIT

from ..collection import Collection, Source
from ..history import Ask, quoted
from . import dates
from .counting import count_of_url
from .layout import card, row, table
from .markup import MOST_LINK, Child, Link, Markup, cut, element, followed, joined, link
from .places import place_of, record_link, text_of
from .searching import Search

SIZE = 50  # rows of a page
_MOST_ADDRESS = 300  # characters of an address that are shown in a list
MOST_DIGEST = 100  # characters of a digest, of which SHA-256 has 64


@dataclass(frozen=True)
class Part:
    """The rows of a page, and the place of the last one if others follow.

    `counts` has the captures of each URL key, in a list of addresses.
    """

    captures: tuple[Capture, ...]
    next: str
    is_first: bool
    counts: tuple[str, ...] = ()


def captures(collection: Collection, search: Search, after: str) -> Part:
    """Returns the captures that follow a place, in the order of the index."""
    ask = collection.captures
    return _part(ask, search.query(resumeKey=after), bool(after))


def addresses(collection: Collection, search: Search, after: str) -> Part:
    """Returns the first capture of each URL key that follows a place, and how many each has."""
    ask = functools.partial(collection.first_of_keys, after)
    part = _part(ask, search.query(resumeKey=after), bool(after))
    times = Search("", "exact", search.first, search.last)
    source = Source(collection)
    counts = tuple(count_of_url(source, replace(times, key=each.urlkey)) for each in part.captures)
    return replace(part, counts=counts)


def _part(ask: Ask, query: str, is_later: bool) -> Part:
    found = ask(query, SIZE + 1)
    place = place_of(found[SIZE - 1]) if len(found) > SIZE else ""
    return Part(tuple(found[:SIZE]), place, not is_later)


def captures_section(part: Part, search: Search, words: str) -> Markup:
    """Returns the list of captures, in a form that compares the texts of two of them."""
    if not part.captures:
        return card(words, element("p", "There are no captures here."))
    names = {"time": "Time", "status": "Status", "type": "Type", "size": "Record", "digest": "Digest"}
    can_compare = sum(map(_can_be_picked, part.captures)) > 1
    if can_compare:
        names["pick"] = "Compare"
    if not search.is_single:
        names = {"time": "Time", "address": "URL", **names}
    before: Optional[str] = None
    rows: list[Child] = []
    for number, capture in enumerate(part.captures):
        rows.append(_capture_row(names, capture, before == capture.digest, number if can_compare else None))
        before = capture.digest if capture.digest != "-" else None
    listed: Child = table(words, names, rows, "captures")
    if can_compare:
        button = element("p", element("button", "Compare the two texts", type="submit"))
        listed = element("form", listed, button, action=Link("compare"), method="get")
    return card(words, listed, _further(part, search, "captures"), id="list")


def _capture_row(names: dict[str, str], capture: Capture, is_same: bool, number: Optional[int]) -> Markup:
    words = f"Record of {dates.in_words(capture.timestamp)}"
    time = followed(_time(capture.timestamp), record_link(capture), aria_label=words)
    digest = joined(
        element("code", cut(capture.digest, MOST_DIGEST)), element("span", " same as above", class_="same") if is_same else None
    )
    cells: dict[str, Child] = {
        "time": time,
        "address": _address(capture.original),
        "status": status_words(capture.statuscode),
        "type": "revisit" if capture.mimetype == REVISIT else cut(capture.mimetype, 80),
        "size": "-" if capture.length is None else dates.many(capture.length, "byte"),
        "digest": digest,
        "pick": _picks(capture, number) if number is not None and _can_be_picked(capture) else None,
    }
    return row(names, *(cells[name] for name in names))


def _time(timestamp: str) -> Markup:
    time = dates.machine_time(timestamp)
    return element("time", dates.in_words(timestamp), datetime=time)


def _address(address: str) -> Markup:
    return element("bdi", cut(address, _MOST_ADDRESS))


def status_words(status: str) -> Child:
    """Returns a status with a class by its hundred, so that errors stand out."""
    hundred = status[0] if len(status) == 3 and status.isascii() and status.isdigit() else "0"
    return element("span", cut(status, 12), class_=f"status s{hundred}")


def _can_be_picked(capture: Capture) -> bool:
    """Whether a link with two such captures isn't longer than a server takes."""
    return 2 * len(quoted(text_of(capture))) <= MOST_LINK


def _picks(capture: Capture, number: int) -> Markup:
    """Returns the two fields by which a capture is chosen for a comparison.

    At first the first and second row are chosen.
    """
    value = text_of(capture)
    return joined(
        element(
            "label",
            element("input", type="radio", name=name, value=value, required=True, checked=number == first),
            element("span", f" {words}", aria_hidden="true"),
            element("span", f"{name}: {dates.in_words(capture.timestamp)}", class_="hidden-label"),
        )
        for name, words, first in (("first", "1st", 0), ("second", "2nd", 1))
    )


def addresses_section(part: Part, search: Search) -> Markup:
    """Returns the list of addresses, each with its first capture."""
    if not part.captures:
        return card("URLs", element("p", "There are no URLs here."))
    names = {"address": "URL", "count": "Captures", "time": "First capture", "status": "Status", "type": "Type"}
    rows = (
        row(
            names,
            followed(_address(capture.original if capture.original != "-" else capture.urlkey), _history(capture)),
            count,
            _time(capture.timestamp),
            status_words(capture.statuscode),
            cut(capture.mimetype, 80),
        )
        for capture, count in zip(part.captures, part.counts)
    )
    return card("URLs", table("URLs", names, rows, "addresses"), _further(part, search, "search"), id="list")


def _history(capture: Capture) -> Link:
    """Returns a link to the captures of the key, which may be one that no address has here."""
    shown = capture.original if capture.original != "-" else ""
    return link("search", url=shown, key=capture.urlkey)


def _further(part: Part, search: Search, page: str) -> Child:
    links: list[Child] = []
    if not part.is_first:
        links.append(element("li", element("a", "First page", href=search.link(page, "list"))))
    if part.next:
        links.append(element("li", followed(f"Next {SIZE}", search.link(page, "list", after=part.next), rel="next")))
    return element("nav", element("ul", links), aria_label="Pages of this list", class_="pages") if links else None
