"""The frame of a page: its heads, the form of the search, and what all pages have."""
from collections.abc import Mapping, Sequence
from typing import Optional

from werkzeug.wrappers import Response

from ..collection import Collection
from . import dates, responses
from .markup import Child, Link, Markup, Value, document, element, joined, link
from .searching import MATCHES, NotShown, Search

UP = "../../"  # from a page of a collection to the list of collections


def collection_page(collection: Collection, title: str, *content: Child, search: Optional[Search] = None, status: int = 200) -> Response:
    """Returns a page of a collection: its name, the form of the search, and what is on it."""
    all_of_them = element("li", element("a", "Collections", href=Link(UP + "browse")))
    path = element(
        "nav",
        element("ol", None if collection.is_alone else all_of_them, element("li", element("a", collection.title, href=Link("./")))),
        aria_label="Where you are",
    )
    body = joined(_banner(path, search_form(search)), element("main", *content, id="content", tabindex=-1))
    shown = f"{title} – {collection.title}" if title != collection.title else title
    return responses.page(_document(shown, body, UP), status)


def list_page(collections: Sequence[Collection]) -> Response:
    """Returns the page with all collections."""
    entries = map(_entry, collections)
    content = joined(
        element("h1", "Web archives"),
        element("p", "Each collection can be searched for a URL or a host."),
        element("ul", entries, class_="collections") if collections else element("p", "There is no collection."),
    )
    body = joined(_banner(None, None), element("main", content, id="content", tabindex=-1))
    return responses.page(_document("Web archives", body, ""))


def _entry(collection: Collection) -> Markup:
    name = element("a", collection.title, href=Link(f"{collection.name}/browse/"))
    return element("li", element("h2", name), element("p", element("code", collection.name)))


def refusal_page(collection: Collection, refusal: NotShown, search: Optional[Search] = None) -> Response:
    """Returns a page that says what was refused, and why."""
    content = element("div", element("h1", refusal.what), element("p", refusal.why), class_="refusal", role="alert")
    return collection_page(collection, "Refused", content, search=search, status=refusal.status)


def search_form(search: Optional[Search]) -> Markup:
    """Returns the form, with what was typed in it."""
    search = search or Search("")
    options = (element("option", words, value=value, selected=search.match == value) for value, words in MATCHES.items())
    return element(
        "form",
        _labelled(
            "URL or host",
            element(
                "input",
                type="text",
                name="url",
                id="url",
                value=search.typed,
                required=True,
                inputmode="url",
                autocapitalize="none",
                autocomplete="off",
                spellcheck="false",
                aria_describedby="url-help",
            ),
            "url",
            "wide",
        ),
        element("button", "Search", type="submit"),
        element(
            "details",
            element("summary", "Match and times"),
            element(
                "div",
                _labelled("Match", element("select", options, name="match", id="match"), "match"),
                _labelled("From", _time_input("from", search.first), "from"),
                _labelled("To", _time_input("to", search.last), "to"),
                class_="fields-in-a-row",
            ),
            _help(),
            open=bool(search.match or search.first or search.last),
        ),
        action=Link("search"),
        method="get",
        role="search",
        class_="search",
    )


def _help() -> Markup:
    """Returns what can be typed."""
    return element(
        "p",
        "A URL such as ",
        element("code", "example.com/page"),
        ", all below it ",
        element("code", "example.com/page*"),
        ", or a host with all hosts below it ",
        element("code", "*.example.com"),
        ". Times are a year, a month or a day: ",
        element("code", "2016-03"),
        ".",
        id="url-help",
        class_="help",
    )


def _time_input(name: str, value: str) -> Markup:
    return element(
        "input",
        type="text",
        name=name,
        id=name,
        value=dates.typed(value),
        size=10,
        maxlength=14,
        autocomplete="off",
        aria_describedby="url-help",
    )


def _labelled(words: str, field: Markup, name: str, kind: str = "") -> Markup:
    return element("p", element("label", words, for_=name), field, class_=f"field {kind}".strip())


def _banner(path: Optional[Markup], form: Optional[Markup]) -> Markup:
    skip = element("a", "Skip to the content", href=link("", "content"), class_="skip")
    return joined(skip, element("header", path, form) if path or form else None)


def _document(title: str, content: Markup, up: str) -> bytes:
    footer = element("footer", element("p", "Times are in UTC. Nothing on these pages is fetched from another site."))
    body = element("body", content, footer)
    return document(title, body, Link(up + "browse/style.css"), Link(up + "browse/icon.svg"))


def card(words: str, *content: Child, **attributes: Value) -> Markup:
    """Returns a part of a page with a frame, under a heading."""
    return element("section", element("h2", words), *content, class_="card", **attributes)


def table(caption: Child, names: Mapping[str, str], rows: Child, kind: str = "") -> Markup:
    """Returns a table. `names` has the words of each column, by the class of its cells."""
    heads = (element("th", words, scope="col", role="columnheader", class_=each) for each, words in names.items())
    head = element("tr", heads, role="row")
    return element(
        "table",
        element("caption", caption),
        element("thead", head, role="rowgroup"),
        element("tbody", rows, role="rowgroup"),
        role="table",
        class_=kind or None,
    )


def row(names: Mapping[str, str], *cells: Child) -> Markup:
    """Returns a row of such a table. Its first cell is its head. Each has its column's words."""
    first, *rest = zip(names.items(), cells)
    return element(
        "tr",
        element("th", first[1], scope="row", role="rowheader", class_=first[0][0]),
        (element("td", cell, role="cell", class_=name, data_label=words) for (name, words), cell in rest),
        role="row",
    )
